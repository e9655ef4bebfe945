; The sum behind R as it was before it passed over zeros, for the benchmark alone: in the library's module it takes the
; place of the function of that name. On aarch64 `open` compiles to the same instructions with it as it did with
;     while j < row.len() {
;         r += row[j] * amounts[j];
;         j += 1;
;     }
define internal noundef i64 @"sheet_terms::activity"(ptr noundef %coefs, i64 noundef %len, ptr noundef %xs, i64 noundef %xs.len) #0 {
start:
  br label %test

test:
  %j = phi i64 [ 0, %start ], [ %j.next, %turn ]
  %r = phi i64 [ 0, %start ], [ %r.next, %turn ]
  %inside = icmp ult i64 %j, %len
  br i1 %inside, label %turn, label %done

turn:
  %coef.at = getelementptr inbounds nuw i64, ptr %coefs, i64 %j
  %coef = load i64, ptr %coef.at, align 8
  %x.at = getelementptr inbounds nuw i64, ptr %xs, i64 %j
  %x = load i64, ptr %x.at, align 8
  %product = mul nsw i64 %coef, %x
  %r.next = add nsw i64 %r, %product
  %j.next = add nuw i64 %j, 1
  br label %test

done:
  ret i64 %r
}
