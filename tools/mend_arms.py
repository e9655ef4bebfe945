"""Mends what a check says of merged arms and of chains that are a step too long.

usage: python3 tools/mend_arms.py CRATE_FOLDER LOG      after tools/mend.py
"""
import re,sys,os
crate,log=sys.argv[1],open(sys.argv[2]).read().split('\n')
todo={}
for l in log:
    m=re.match(r"\./(\S+\.antt):(\d+):(\d+): error: .*Lts\.(In-[\w-]+)` has no field `match`",l)
    if m: todo.setdefault(m[1],[]).append((int(m[2]),int(m[3]),m[4][0].lower()+m[4][1:]))
n=0
for f,t in todo.items():
    p=os.path.join(crate,f); ls=open(p,encoding='utf-8').read().split('\n')
    for line,col,name in sorted(t,reverse=True):
        x=ls[line-1]; 
        name=re.sub(r'-\d+$','',name) if re.match(r'in-.*-\d+-\d+$',name) else name
        new=x[:col-1]+re.sub(r'\.match\.keys\d+',f'.{name}.is',x[col-1:],count=1)
        if new==x: new=re.sub(r'\.match\.keys\d+',f'.{name}.is',x,count=1)
        n+=new!=x; ls[line-1]=new
    open(p,'w',encoding='utf-8').write('\n'.join(ls))
print('mended2',n)
todo={}
for l in log:
    m=re.match(r"\./(\S+\.antt):(\d+):(\d+): error: .*Lts\.Start` has no field `before`",l)
    if m: todo.setdefault(m[1],[]).append((int(m[2]),int(m[3])))
n=0
for f,t in todo.items():
    p=os.path.join(crate,f); ls=open(p,encoding='utf-8').read().split('\n')
    decls=set()
    for line,col in sorted(t,reverse=True):
        x=ls[line-1]
        for m in re.finditer(r"\(?\b(\w+)((?:\.before)+)\b(?!-)\)?",x):
            if m.start()<=col-1<m.end(): break
        else: print('no chain',f,line,col); continue
        a,b=m.start(),m.end()
        if x[a]=='(' and not (x[b-1]==')'): a+=1
        elif x[b-1]==')' and x[a]!='(': b-=1
        elif x[a]=='(' and x[b-1]==')': pass
        ls[line-1]=x[:a]+'s0'+x[b:]
        d=line-1
        while d>0 and (ls[d]=='' or ls[d][0]==' ' or ls[d].startswith('--')): d-=1
        decls.add(d); n+=1
    for d in sorted(decls,reverse=True):
        if 's0 :' in '\n'.join(ls[d:d+2]): continue
        head=re.match(r"([\w'-]+)",ls[d])[1]
        k=d
        while k>0 and not re.match(re.escape(head)+r' :',ls[k]) and not ls[k].startswith('abbrev '+head+' :') and not ls[k].startswith('pub '+head+' :'): k-=1
        pm=re.search(r'\btie\.[\w-]+((?: (?:invariant|decreases)[\w-]*)*)',ls[k])
        let=f"let s0 : tie.Start{pm[1] if pm else ''} = search in"
        i=ls[d].find(' = ')
        if i>=0: ls[d]=ls[d][:i]+' = '+let+ls[d][i+2:]
        elif ls[d].rstrip().endswith(' ='):
            ind=re.match(r'\s*',ls[d+1])[0]; ls.insert(d+1,ind+let)
        else: print('no =',f,d+1)
    open(p,'w',encoding='utf-8').write('\n'.join(ls))
print('mended3',n)
