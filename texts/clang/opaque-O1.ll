define dso_local i32 @c_print(i32 noundef %0, ptr noundef %1) local_unnamed_addr #0 {
  %3 = sitofp i32 %0 to double
  %4 = fmul double %3, 5.000000e-01
  %5 = call i32 (ptr, ...) @printf(ptr noundef nonnull dereferenceable(1) getelementptr inbounds ([10 x i8], ptr @.str, i64 0, i64 0), i32 noundef %0, ptr noundef %1, double noundef %4)
  ret i32 %5
}

define dso_local i32 @c_sum(i32 noundef %0, ...) local_unnamed_addr #2 {
  %2 = alloca [1 x %struct.__va_list_tag], align 16
  %3 = bitcast ptr %2 to ptr
  call void @llvm.lifetime.start.p0(i64 24, ptr nonnull %3) #24
  call void @llvm.va_start(ptr nonnull %3)
  %4 = icmp eq i32 %0, 0
  br i1 %4, label %29, label %5

5:                                                ; preds = %1
  %6 = getelementptr inbounds [1 x %struct.__va_list_tag], ptr %2, i64 0, i64 0, i32 0
  %7 = getelementptr inbounds [1 x %struct.__va_list_tag], ptr %2, i64 0, i64 0, i32 2
  %8 = getelementptr inbounds [1 x %struct.__va_list_tag], ptr %2, i64 0, i64 0, i32 3
  %9 = load ptr, ptr %8, align 16
  br label %10

10:                                               ; preds = %23, %5
  %11 = phi i32 [ %0, %5 ], [ %13, %23 ]
  %12 = phi i32 [ 0, %5 ], [ %27, %23 ]
  %13 = add nsw i32 %11, -1
  %14 = load i32, ptr %6, align 16
  %15 = icmp ult i32 %14, 41
  br i1 %15, label %16, label %20

16:                                               ; preds = %10
  %17 = sext i32 %14 to i64
  %18 = getelementptr i8, ptr %9, i64 %17
  %19 = add i32 %14, 8
  store i32 %19, ptr %6, align 16
  br label %23

20:                                               ; preds = %10
  %21 = load ptr, ptr %7, align 8
  %22 = getelementptr i8, ptr %21, i64 8
  store ptr %22, ptr %7, align 8
  br label %23

23:                                               ; preds = %20, %16
  %24 = phi ptr [ %18, %16 ], [ %21, %20 ]
  %25 = bitcast ptr %24 to ptr
  %26 = load i32, ptr %25, align 4
  %27 = add nsw i32 %26, %12
  %28 = icmp eq i32 %13, 0
  br i1 %28, label %29, label %10, !llvm.loop !5

29:                                               ; preds = %23, %1
  %30 = phi i32 [ 0, %1 ], [ %27, %23 ]
  call void @llvm.va_end(ptr %3)
  call void @llvm.lifetime.end.p0(i64 24, ptr nonnull %3) #24
  ret i32 %30
}

define dso_local i32 @c_indirect(ptr noundef readonly %0, i32 noundef %1, ptr noundef %2) local_unnamed_addr #4 {
  %4 = icmp eq ptr %0, null
  br i1 %4, label %7, label %5

5:                                                ; preds = %3
  %6 = call i32 %0(i32 noundef %1, ptr noundef %2) #24
  br label %7

7:                                                ; preds = %5, %3
  %8 = phi i32 [ %6, %5 ], [ -1, %3 ]
  ret i32 %8
}

define dso_local void @c_table(i32 noundef %0) local_unnamed_addr #4 {
  %2 = and i32 %0, 3
  %3 = zext i32 %2 to i64
  %4 = getelementptr inbounds [4 x ptr], ptr @plains, i64 0, i64 %3
  %5 = load ptr, ptr %4, align 8, !tbaa !8
  call void %5() #24
  ret void
}

define dso_local ptr @c_pick(i32 noundef %0, ptr noundef readnone %1, ptr noundef readnone %2) local_unnamed_addr #5 {
  %4 = icmp eq i32 %0, 0
  %5 = select i1 %4, ptr %2, ptr %1
  ret ptr %5
}

define dso_local i32 @c_fact(i32 noundef %0) local_unnamed_addr #6 {
  %2 = icmp slt i32 %0, 2
  br i1 %2, label %7, label %3

3:                                                ; preds = %1
  %4 = add nsw i32 %0, -1
  %5 = call i32 @c_fact(i32 noundef %4)
  %6 = mul nsw i32 %5, %0
  br label %7

7:                                                ; preds = %3, %1
  %8 = phi i32 [ %6, %3 ], [ 1, %1 ]
  ret i32 %8
}

define dso_local i32 @c_tail(i32 noundef %0, i32 noundef %1) local_unnamed_addr #6 {
  %3 = icmp eq i32 %0, 0
  br i1 %3, label %8, label %4

4:                                                ; preds = %2
  %5 = add nsw i32 %0, -1
  %6 = add nsw i32 %1, %0
  %7 = call i32 @c_tail(i32 noundef %5, i32 noundef %6)
  br label %8

8:                                                ; preds = %4, %2
  %9 = phi i32 [ %7, %4 ], [ %1, %2 ]
  ret i32 %9
}

define dso_local void @c_die(i32 noundef %0) local_unnamed_addr #7 {
  %2 = call i32 @puts(ptr nonnull dereferenceable(1) getelementptr inbounds ([5 x i8], ptr @str, i64 0, i64 0))
  call void @exit(i32 noundef %0) #25
  unreachable
}

define dso_local i32 @c_unreachable(i32 noundef %0) local_unnamed_addr #9 {
  %2 = icmp eq i32 %0, 3
  call void @llvm.assume(i1 %2)
  ret i32 1
}

define dso_local i32 @c_cold(i32 noundef %0) local_unnamed_addr #10 {
  %2 = add nsw i32 %0, 1
  ret i32 %2
}

define dso_local i32 @c_uses(i32 noundef %0) local_unnamed_addr #5 {
  %2 = add nsw i32 %0, 2
  %3 = call i32 @c_cold(i32 noundef %0) #26
  %4 = add nsw i32 %2, %3
  ret i32 %4
}

define dso_local i32 @c_fast(i32 noundef %0) local_unnamed_addr #5 {
  %2 = shl nsw i32 %0, 1
  %3 = call fastcc i32 @c_static(i32 noundef %0, i32 noundef %2)
  %4 = call fastcc i32 @c_static(i32 noundef 3, i32 noundef %0)
  %5 = add nsw i32 %4, %3
  ret i32 %5
}

define internal fastcc i32 @c_static(i32 noundef %0, i32 noundef %1) unnamed_addr #11 {
  %3 = add nsw i32 %1, 1
  %4 = sdiv i32 %0, %3
  ret i32 %4
}

define weak dso_local i32 @c_weak() local_unnamed_addr #4 {
  ret i32 5
}

define hidden i32 @c_hidden() local_unnamed_addr #5 {
  ret i32 6
}

define dso_local i32 @c_expect(i32 noundef %0) local_unnamed_addr #12 {
  %2 = icmp eq i32 %0, 0
  br i1 %2, label %5, label %3, !prof !12

3:                                                ; preds = %1
  %4 = call i32 @llvm.abs.i32(i32 %0, i1 true)
  br label %7

5:                                                ; preds = %1
  %6 = call i32 @llvm.ctpop.i32(i32 %0), !range !13
  br label %7

7:                                                ; preds = %5, %3
  %8 = phi i32 [ %4, %3 ], [ %6, %5 ]
  ret i32 %8
}

define dso_local i32 @c_overflow(i32 noundef %0, i32 noundef %1) local_unnamed_addr #12 {
  %3 = call { i32, i1 } @llvm.sadd.with.overflow.i32(i32 %0, i32 %1)
  %4 = extractvalue { i32, i1 } %3, 1
  %5 = extractvalue { i32, i1 } %3, 0
  %6 = select i1 %4, i32 -1, i32 %5
  ret i32 %6
}

define dso_local i32 @a_load(ptr nocapture noundef readonly %0) local_unnamed_addr #14 {
  %2 = load atomic i32, ptr %0 seq_cst, align 4
  ret i32 %2
}

define dso_local void @a_store(ptr nocapture noundef writeonly %0, i32 noundef %1) local_unnamed_addr #14 {
  store atomic i32 %1, ptr %0 release, align 4
  ret void
}

define dso_local i32 @a_add(ptr nocapture noundef %0) local_unnamed_addr #14 {
  %2 = atomicrmw add ptr %0, i32 3 seq_cst, align 4
  ret i32 %2
}

define dso_local i32 @a_exchange(ptr nocapture noundef %0, i64 noundef %1, i64 noundef %2) local_unnamed_addr #14 {
  %4 = cmpxchg ptr %0, i64 %1, i64 %2 seq_cst seq_cst, align 8
  %5 = extractvalue { i64, i1 } %4, 1
  %6 = zext i1 %5 to i32
  ret i32 %6
}

define dso_local void @a_fence() local_unnamed_addr #14 {
  fence seq_cst
  ret void
}

define dso_local void @a_signal() local_unnamed_addr #15 {
  fence syncscope("singlethread") acquire
  ret void
}

define dso_local i32 @a_spin(ptr nocapture noundef %0) local_unnamed_addr #16 {
  br label %2

2:                                                ; preds = %2, %1
  %3 = phi i32 [ 0, %1 ], [ %6, %2 ]
  %4 = cmpxchg weak ptr %0, i32 0, i32 1 acquire monotonic, align 4
  %5 = extractvalue { i32, i1 } %4, 1
  %6 = add nuw nsw i32 %3, 1
  br i1 %5, label %7, label %2, !llvm.loop !14

7:                                                ; preds = %2
  ret i32 %3
}

define dso_local i32 @c_compare(ptr nocapture noundef readonly %0, ptr nocapture noundef readonly %1) #17 {
  %3 = bitcast ptr %0 to ptr
  %4 = load i32, ptr %3, align 4, !tbaa !15
  %5 = bitcast ptr %1 to ptr
  %6 = load i32, ptr %5, align 4, !tbaa !15
  %7 = sub nsw i32 %4, %6
  ret i32 %7
}

define dso_local void @c_sort(ptr noundef %0, i64 noundef %1) local_unnamed_addr #0 {
  %3 = bitcast ptr %0 to ptr
  call void @qsort(ptr noundef %3, i64 noundef %1, i64 noundef 4, ptr noundef nonnull @c_compare) #24
  ret void
}

define dso_local noalias ptr @c_alloc(i64 noundef %0) local_unnamed_addr #19 {
  %2 = call noalias ptr @malloc(i64 noundef %0) #24
  %3 = icmp eq ptr %2, null
  br i1 %3, label %4, label %6

4:                                                ; preds = %1
  %5 = call noalias ptr @calloc(i64 noundef 1, i64 noundef %0) #24
  br label %6

6:                                                ; preds = %4, %1
  %7 = phi ptr [ %5, %4 ], [ %2, %1 ]
  ret ptr %7
}

define dso_local i32 @c_label(i32 noundef %0) #5 {
  %2 = and i32 %0, 1
  %3 = zext i32 %2 to i64
  %4 = getelementptr inbounds [2 x ptr], ptr @c_label.to, i64 0, i64 %3
  %5 = load ptr, ptr %4, align 8, !tbaa !8
  indirectbr ptr %5, [label %7, label %6]

6:                                                ; preds = %1
  br label %7

7:                                                ; preds = %6, %1
  %8 = phi i32 [ 2, %6 ], [ 1, %1 ]
  ret i32 %8
}

define dso_local void @cue_single() local_unnamed_addr #0 {
  call void @fire(i32 noundef 7) #6
  ret void
}

define dso_local void @cue_pair(i32 noundef %0, i32 noundef %1) local_unnamed_addr #0 {
  call void @fire(i32 noundef %0) #6
  call void @wait_ms(i32 noundef 250) #6
  call void @fire(i32 noundef %1) #6
  ret void
}

define dso_local void @cue_sweep(i32 noundef %0, i32 noundef %1) local_unnamed_addr #0 {
  %3 = icmp sgt i32 %0, %1
  br i1 %3, label %4, label %5

4:                                                ; preds = %5, %2
  ret void

5:                                                ; preds = %5, %2
  %6 = phi i32 [ %7, %5 ], [ %0, %2 ]
  call void @fire(i32 noundef %6) #6
  call void @wait_ms(i32 noundef 40) #6
  %7 = add i32 %6, 1
  %8 = icmp eq i32 %6, %1
  br i1 %8, label %4, label %5, !llvm.loop !5
}

define dso_local void @cue_back(i32 noundef %0, i32 noundef %1) local_unnamed_addr #0 {
  br label %3

3:                                                ; preds = %3, %2
  %4 = phi i32 [ %0, %2 ], [ %5, %3 ]
  call void @fire(i32 noundef %4) #6
  %5 = add nsw i32 %4, -1
  %6 = icmp sgt i32 %5, %1
  br i1 %6, label %3, label %7, !llvm.loop !8

7:                                                ; preds = %3
  ret void
}

define dso_local i32 @cue_guard(i32 noundef %0) local_unnamed_addr #0 {
  %2 = call i32 @armed(i32 noundef %0) #6
  %3 = icmp eq i32 %2, 0
  br i1 %3, label %5, label %4

4:                                                ; preds = %1
  call void @fire(i32 noundef %0) #6
  br label %5

5:                                                ; preds = %4, %1
  %6 = phi i32 [ 0, %4 ], [ -1, %1 ]
  ret i32 %6
}

define dso_local i32 @cue_level(i32 noundef %0) local_unnamed_addr #0 {
  %2 = call i32 @level_of(i32 noundef %0) #6
  %3 = load i32, ptr @master, align 4, !tbaa !9
  %4 = mul nsw i32 %3, %2
  %5 = sdiv i32 %4, 255
  %6 = icmp sgt i32 %5, 0
  %7 = select i1 %6, i32 %5, i32 0
  %8 = icmp slt i32 %7, 255
  %9 = select i1 %8, i32 %7, i32 255
  ret i32 %9
}

define dso_local void @cue_crossfade(i32 noundef %0, i32 noundef %1) local_unnamed_addr #0 {
  br label %4

3:                                                ; preds = %4
  ret void

4:                                                ; preds = %4, %2
  %5 = phi i32 [ 0, %2 ], [ %7, %4 ]
  %6 = sub nuw nsw i32 255, %5
  call void @fade(i32 noundef %0, i32 noundef %6, i32 noundef 20) #6
  call void @fade(i32 noundef %1, i32 noundef %5, i32 noundef 20) #6
  %7 = add nuw nsw i32 %5, 5
  %8 = icmp ult i32 %5, 251
  br i1 %8, label %4, label %3, !llvm.loop !13
}

define dso_local void @cue_table(ptr nocapture noundef readonly %0, i32 noundef %1) local_unnamed_addr #0 {
  %3 = icmp sgt i32 %1, 0
  br i1 %3, label %4, label %11

4:                                                ; preds = %4, %2
  %5 = phi i32 [ %7, %4 ], [ %1, %2 ]
  %6 = phi ptr [ %8, %4 ], [ %0, %2 ]
  %7 = add nsw i32 %5, -1
  %8 = getelementptr inbounds i32, ptr %6, i64 1
  %9 = load i32, ptr %6, align 4, !tbaa !9
  call void @fire(i32 noundef %9) #6
  %10 = icmp sgt i32 %5, 1
  br i1 %10, label %4, label %11, !llvm.loop !14

11:                                               ; preds = %4, %2
  ret void
}

define dso_local i32 @cue_kind(i32 noundef %0) local_unnamed_addr #0 {
  switch i32 %0, label %7 [
    i32 0, label %8
    i32 1, label %2
    i32 2, label %3
    i32 17, label %4
    i32 -4, label %5
    i32 1000000, label %6
  ]

2:                                                ; preds = %1
  br label %8

3:                                                ; preds = %1
  br label %8

4:                                                ; preds = %1
  call void @fire(i32 noundef 1) #6
  br label %8

5:                                                ; preds = %1
  call void @fire(i32 noundef 2) #6
  br label %8

6:                                                ; preds = %1
  br label %8

7:                                                ; preds = %1
  br label %8

8:                                                ; preds = %7, %6, %5, %4, %3, %2, %1
  %9 = phi i32 [ 0, %7 ], [ 7, %6 ], [ 2, %5 ], [ 1, %4 ], [ 5, %3 ], [ 20, %2 ], [ 10, %1 ]
  ret i32 %9
}

define dso_local void @cue_select(i32 noundef %0) local_unnamed_addr #0 {
  %2 = and i32 %0, 7
  switch i32 %2, label %8 [
    i32 0, label %3
    i32 1, label %4
    i32 2, label %5
    i32 3, label %6
    i32 4, label %7
    i32 5, label %9
  ]

3:                                                ; preds = %1
  call void @fire(i32 noundef 1) #6
  br label %9

4:                                                ; preds = %1
  call void @fire(i32 noundef 2) #6
  br label %5

5:                                                ; preds = %4, %1
  call void @fire(i32 noundef 3) #6
  br label %9

6:                                                ; preds = %1
  call void @wait_ms(i32 noundef 1) #6
  br label %9

7:                                                ; preds = %1
  call void @fade(i32 noundef 1, i32 noundef 2, i32 noundef 3) #6
  br label %9

8:                                                ; preds = %1
  call void @fire(i32 noundef 0) #6
  br label %9

9:                                                ; preds = %8, %7, %6, %5, %3, %1
  ret void
}

define dso_local i32 @cue_nested(i32 noundef %0) local_unnamed_addr #2 {
  %2 = icmp sgt i32 %0, 0
  br i1 %2, label %3, label %6

3:                                                ; preds = %8, %1
  %4 = phi i32 [ %9, %8 ], [ 0, %1 ]
  %5 = phi i32 [ %17, %8 ], [ 0, %1 ]
  br label %11

6:                                                ; preds = %8, %1
  %7 = phi i32 [ 0, %1 ], [ %17, %8 ]
  ret i32 %7

8:                                                ; preds = %11
  %9 = add nuw nsw i32 %4, 1
  %10 = icmp eq i32 %9, %0
  br i1 %10, label %6, label %3, !llvm.loop !15

11:                                               ; preds = %11, %3
  %12 = phi i32 [ %18, %11 ], [ %4, %3 ]
  %13 = phi i32 [ %17, %11 ], [ %5, %3 ]
  %14 = xor i32 %12, %4
  %15 = mul nsw i32 %14, 3
  %16 = add i32 %13, 1
  %17 = add i32 %16, %15
  %18 = add nuw nsw i32 %12, 1
  %19 = icmp eq i32 %18, %0
  br i1 %19, label %8, label %11, !llvm.loop !16
}

define dso_local ptr @cue_name(i32 noundef %0) local_unnamed_addr #3 {
  %2 = icmp ult i32 %0, 16
  br i1 %2, label %3, label %7

3:                                                ; preds = %1
  %4 = zext i32 %0 to i64
  %5 = getelementptr inbounds [16 x ptr], ptr @names, i64 0, i64 %4
  %6 = load ptr, ptr %5, align 8, !tbaa !17
  br label %7

7:                                                ; preds = %3, %1
  %8 = phi ptr [ %6, %3 ], [ getelementptr inbounds ([5 x i8], ptr @.str, i64 0, i64 0), %1 ]
  ret ptr %8
}

define dso_local i32 @cue_goto(i32 noundef %0) local_unnamed_addr #0 {
  %2 = icmp sgt i32 %0, 100
  br i1 %2, label %7, label %3

3:                                                ; preds = %3, %1
  %4 = phi i32 [ %5, %3 ], [ %0, %1 ]
  call void @fire(i32 noundef %4) #6
  %5 = add nsw i32 %4, 7
  %6 = icmp sgt i32 %4, 93
  br i1 %6, label %7, label %3

7:                                                ; preds = %3, %1
  %8 = phi i32 [ %0, %1 ], [ %5, %3 ]
  ret i32 %8
}

define dso_local i32 @cue_hash(ptr nocapture noundef readonly %0) local_unnamed_addr #4 {
  %2 = load i8, ptr %0, align 1, !tbaa !19
  %3 = icmp eq i8 %2, 0
  br i1 %3, label %14, label %4

4:                                                ; preds = %4, %1
  %5 = phi i8 [ %12, %4 ], [ %2, %1 ]
  %6 = phi i32 [ %11, %4 ], [ -2128831035, %1 ]
  %7 = phi ptr [ %8, %4 ], [ %0, %1 ]
  %8 = getelementptr inbounds i8, ptr %7, i64 1
  %9 = zext i8 %5 to i32
  %10 = xor i32 %6, %9
  %11 = mul i32 %10, 16777619
  %12 = load i8, ptr %8, align 1, !tbaa !19
  %13 = icmp eq i8 %12, 0
  br i1 %13, label %14, label %4, !llvm.loop !20

14:                                               ; preds = %4, %1
  %15 = phi i32 [ -2128831035, %1 ], [ %11, %4 ]
  ret i32 %15
}

define dso_local i32 @cue_clamp(i32 noundef %0, i32 noundef %1, i32 noundef %2) local_unnamed_addr #5 {
  %4 = icmp slt i32 %0, %1
  %5 = icmp sgt i32 %0, %2
  %6 = select i1 %5, i32 %2, i32 %0
  %7 = select i1 %4, i32 %1, i32 %6
  ret i32 %7
}

define dso_local i32 @l_collatz(i32 noundef %0) local_unnamed_addr #0 {
  %2 = icmp eq i32 %0, 1
  br i1 %2, label %14, label %3

3:                                                ; preds = %3, %1
  %4 = phi i32 [ %12, %3 ], [ 0, %1 ]
  %5 = phi i32 [ %11, %3 ], [ %0, %1 ]
  %6 = and i32 %5, 1
  %7 = icmp eq i32 %6, 0
  %8 = mul i32 %5, 3
  %9 = add i32 %8, 1
  %10 = lshr i32 %5, 1
  %11 = select i1 %7, i32 %10, i32 %9
  %12 = add nuw nsw i32 %4, 1
  %13 = icmp eq i32 %11, 1
  br i1 %13, label %14, label %3, !llvm.loop !5

14:                                               ; preds = %3, %1
  %15 = phi i32 [ 0, %1 ], [ %12, %3 ]
  ret i32 %15
}

define dso_local i32 @l_gcd(i32 noundef %0, i32 noundef %1) local_unnamed_addr #0 {
  %3 = icmp eq i32 %1, 0
  br i1 %3, label %9, label %4

4:                                                ; preds = %4, %2
  %5 = phi i32 [ %6, %4 ], [ %0, %2 ]
  %6 = phi i32 [ %7, %4 ], [ %1, %2 ]
  %7 = srem i32 %5, %6
  %8 = icmp eq i32 %7, 0
  br i1 %8, label %9, label %4, !llvm.loop !8

9:                                                ; preds = %4, %2
  %10 = phi i32 [ %0, %2 ], [ %6, %4 ]
  ret i32 %10
}

define dso_local i32 @l_search(ptr nocapture noundef readonly %0, i32 noundef %1, i32 noundef %2) local_unnamed_addr #1 {
  %4 = add nsw i32 %1, -1
  br label %5

5:                                                ; preds = %24, %3
  %6 = phi i32 [ 0, %3 ], [ %25, %24 ]
  %7 = phi i32 [ %4, %3 ], [ %26, %24 ]
  %8 = phi i32 [ undef, %3 ], [ %27, %24 ]
  %9 = icmp slt i32 %7, %6
  br i1 %9, label %28, label %10

10:                                               ; preds = %5
  %11 = sub nsw i32 %7, %6
  %12 = sdiv i32 %11, 2
  %13 = add nsw i32 %12, %6
  %14 = sext i32 %13 to i64
  %15 = getelementptr inbounds i32, ptr %0, i64 %14
  %16 = load i32, ptr %15, align 4, !tbaa !9
  %17 = icmp eq i32 %16, %2
  br i1 %17, label %24, label %18

18:                                               ; preds = %10
  %19 = icmp slt i32 %16, %2
  %20 = add nsw i32 %13, 1
  %21 = add nsw i32 %13, -1
  %22 = select i1 %19, i32 %20, i32 %6
  %23 = select i1 %19, i32 %7, i32 %21
  br label %24

24:                                               ; preds = %18, %10
  %25 = phi i32 [ %22, %18 ], [ %6, %10 ]
  %26 = phi i32 [ %23, %18 ], [ %7, %10 ]
  %27 = phi i32 [ %8, %18 ], [ %13, %10 ]
  br i1 %17, label %28, label %5, !llvm.loop !13

28:                                               ; preds = %24, %5
  %29 = phi i32 [ %27, %24 ], [ -1, %5 ]
  ret i32 %29
}

define dso_local void @l_bubble(ptr nocapture noundef %0, i32 noundef %1) local_unnamed_addr #2 {
  %3 = icmp sgt i32 %1, 0
  br i1 %3, label %4, label %12

4:                                                ; preds = %13, %2
  %5 = phi i32 [ %7, %13 ], [ %1, %2 ]
  %6 = phi i32 [ %14, %13 ], [ 0, %2 ]
  %7 = add i32 %5, -1
  %8 = sub nsw i32 %1, %6
  %9 = icmp sgt i32 %8, 1
  br i1 %9, label %10, label %13

10:                                               ; preds = %4
  %11 = zext i32 %7 to i64
  br label %16

12:                                               ; preds = %13, %2
  ret void

13:                                               ; preds = %26, %4
  %14 = add nuw nsw i32 %6, 1
  %15 = icmp eq i32 %14, %1
  br i1 %15, label %12, label %4, !llvm.loop !14

16:                                               ; preds = %26, %10
  %17 = phi i64 [ 0, %10 ], [ %19, %26 ]
  %18 = phi i64 [ 1, %10 ], [ %27, %26 ]
  %19 = add nuw nsw i64 %17, 1
  %20 = getelementptr inbounds i32, ptr %0, i64 %17
  %21 = load i32, ptr %20, align 4, !tbaa !9
  %22 = getelementptr inbounds i32, ptr %0, i64 %18
  %23 = load i32, ptr %22, align 4, !tbaa !9
  %24 = icmp sgt i32 %21, %23
  br i1 %24, label %25, label %26

25:                                               ; preds = %16
  store i32 %23, ptr %20, align 4, !tbaa !9
  store i32 %21, ptr %22, align 4, !tbaa !9
  br label %26

26:                                               ; preds = %25, %16
  %27 = add nuw nsw i64 %18, 1
  %28 = icmp eq i64 %19, %11
  br i1 %28, label %13, label %16, !llvm.loop !15
}

define dso_local i32 @l_crc(ptr nocapture noundef readonly %0, i32 noundef %1) local_unnamed_addr #1 {
  %3 = icmp sgt i32 %1, 0
  br i1 %3, label %4, label %8

4:                                                ; preds = %2
  %5 = zext i32 %1 to i64
  br label %10

6:                                                ; preds = %17
  %7 = xor i32 %27, -1
  br label %8

8:                                                ; preds = %6, %2
  %9 = phi i32 [ 0, %2 ], [ %7, %6 ]
  ret i32 %9

10:                                               ; preds = %17, %4
  %11 = phi i64 [ 0, %4 ], [ %18, %17 ]
  %12 = phi i32 [ -1, %4 ], [ %27, %17 ]
  %13 = getelementptr inbounds i8, ptr %0, i64 %11
  %14 = load i8, ptr %13, align 1, !tbaa !16
  %15 = zext i8 %14 to i32
  %16 = xor i32 %12, %15
  br label %20

17:                                               ; preds = %20
  %18 = add nuw nsw i64 %11, 1
  %19 = icmp eq i64 %18, %5
  br i1 %19, label %6, label %10, !llvm.loop !17

20:                                               ; preds = %20, %10
  %21 = phi i32 [ 0, %10 ], [ %28, %20 ]
  %22 = phi i32 [ %16, %10 ], [ %27, %20 ]
  %23 = lshr i32 %22, 1
  %24 = and i32 %22, 1
  %25 = sub nsw i32 0, %24
  %26 = and i32 %25, -306674912
  %27 = xor i32 %26, %23
  %28 = add nuw nsw i32 %21, 1
  %29 = icmp eq i32 %28, 8
  br i1 %29, label %17, label %20, !llvm.loop !18
}

define dso_local i32 @l_parse(ptr nocapture noundef readonly %0) local_unnamed_addr #1 {
  br label %2

2:                                                ; preds = %5, %1
  %3 = phi ptr [ %0, %1 ], [ %6, %5 ]
  %4 = load i8, ptr %3, align 1, !tbaa !16
  switch i8 %4, label %9 [
    i8 32, label %5
    i8 9, label %5
    i8 45, label %7
  ]

5:                                                ; preds = %2, %2
  %6 = getelementptr inbounds i8, ptr %3, i64 1
  br label %2, !llvm.loop !19

7:                                                ; preds = %2
  %8 = getelementptr inbounds i8, ptr %3, i64 1
  br label %9

9:                                                ; preds = %7, %2
  %10 = phi ptr [ %8, %7 ], [ %3, %2 ]
  %11 = phi i32 [ -1, %7 ], [ 1, %2 ]
  %12 = load i8, ptr %10, align 1, !tbaa !16
  %13 = add i8 %12, -48
  %14 = icmp ult i8 %13, 10
  br i1 %14, label %15, label %27

15:                                               ; preds = %15, %9
  %16 = phi i8 [ %24, %15 ], [ %12, %9 ]
  %17 = phi i32 [ %22, %15 ], [ 0, %9 ]
  %18 = phi ptr [ %23, %15 ], [ %10, %9 ]
  %19 = sext i8 %16 to i32
  %20 = mul nsw i32 %17, 10
  %21 = add i32 %20, -48
  %22 = add i32 %21, %19
  %23 = getelementptr inbounds i8, ptr %18, i64 1
  %24 = load i8, ptr %23, align 1, !tbaa !16
  %25 = add i8 %24, -48
  %26 = icmp ult i8 %25, 10
  br i1 %26, label %15, label %27, !llvm.loop !20

27:                                               ; preds = %15, %9
  %28 = phi i32 [ 0, %9 ], [ %22, %15 ]
  %29 = mul nsw i32 %28, %11
  ret i32 %29
}

define dso_local i32 @l_state(ptr nocapture noundef readonly %0) local_unnamed_addr #1 {
  %2 = load i8, ptr %0, align 1, !tbaa !16
  %3 = icmp eq i8 %2, 0
  br i1 %3, label %21, label %4

4:                                                ; preds = %16, %1
  %5 = phi i8 [ %19, %16 ], [ %2, %1 ]
  %6 = phi i32 [ %17, %16 ], [ 0, %1 ]
  %7 = phi ptr [ %18, %16 ], [ %0, %1 ]
  switch i32 %6, label %16 [
    i32 0, label %8
    i32 1, label %11
    i32 2, label %25
  ]

8:                                                ; preds = %4
  %9 = icmp eq i8 %5, 97
  %10 = zext i1 %9 to i32
  br label %16

11:                                               ; preds = %4
  %12 = icmp eq i8 %5, 98
  %13 = icmp eq i8 %5, 97
  %14 = zext i1 %13 to i32
  %15 = select i1 %12, i32 2, i32 %14
  br label %16

16:                                               ; preds = %11, %8, %4
  %17 = phi i32 [ %6, %4 ], [ %15, %11 ], [ %10, %8 ]
  %18 = getelementptr inbounds i8, ptr %7, i64 1
  %19 = load i8, ptr %18, align 1, !tbaa !16
  %20 = icmp eq i8 %19, 0
  br i1 %20, label %21, label %4, !llvm.loop !21

21:                                               ; preds = %16, %1
  %22 = phi i32 [ 0, %1 ], [ %17, %16 ]
  %23 = icmp eq i32 %22, 2
  %24 = zext i1 %23 to i32
  br label %25

25:                                               ; preds = %21, %4
  %26 = phi i32 [ %24, %21 ], [ 1, %4 ]
  ret i32 %26
}

define dso_local i32 @l_vowels(ptr nocapture noundef readonly %0) local_unnamed_addr #3 {
  %2 = load i8, ptr %0, align 1, !tbaa !16
  %3 = icmp eq i8 %2, 0
  br i1 %3, label %18, label %4

4:                                                ; preds = %13, %1
  %5 = phi i8 [ %16, %13 ], [ %2, %1 ]
  %6 = phi i32 [ %14, %13 ], [ 0, %1 ]
  %7 = phi ptr [ %15, %13 ], [ %0, %1 ]
  %8 = sext i8 %5 to i32
  %9 = add nsw i32 %8, -97
  %10 = call i32 @llvm.fshl.i32(i32 %9, i32 %9, i32 31)
  switch i32 %10, label %13 [
    i32 0, label %11
    i32 2, label %11
    i32 4, label %11
    i32 7, label %11
    i32 10, label %11
  ]

11:                                               ; preds = %4, %4, %4, %4, %4
  %12 = add nsw i32 %6, 1
  br label %13

13:                                               ; preds = %11, %4
  %14 = phi i32 [ %6, %4 ], [ %12, %11 ]
  %15 = getelementptr inbounds i8, ptr %7, i64 1
  %16 = load i8, ptr %15, align 1, !tbaa !16
  %17 = icmp eq i8 %16, 0
  br i1 %17, label %18, label %4, !llvm.loop !22

18:                                               ; preds = %13, %1
  %19 = phi i32 [ 0, %1 ], [ %14, %13 ]
  ret i32 %19
}

define dso_local void @l_matrix(ptr nocapture noundef writeonly %0, ptr nocapture noundef readonly %1, ptr nocapture noundef readonly %2, i32 noundef %3) local_unnamed_addr #4 {
  %5 = icmp sgt i32 %3, 0
  br i1 %5, label %6, label %17

6:                                                ; preds = %4
  %7 = sext i32 %3 to i64
  %8 = sext i32 %3 to i64
  %9 = sext i32 %3 to i64
  %10 = zext i32 %3 to i64
  %11 = zext i32 %3 to i64
  %12 = zext i32 %3 to i64
  br label %13

13:                                               ; preds = %20, %6
  %14 = phi i64 [ 0, %6 ], [ %21, %20 ]
  %15 = mul nsw i64 %14, %8
  %16 = mul nsw i64 %14, %9
  br label %18

17:                                               ; preds = %20, %4
  ret void

18:                                               ; preds = %23, %13
  %19 = phi i64 [ 0, %13 ], [ %26, %23 ]
  br label %28

20:                                               ; preds = %23
  %21 = add nuw nsw i64 %14, 1
  %22 = icmp eq i64 %21, %10
  br i1 %22, label %17, label %13, !llvm.loop !23

23:                                               ; preds = %28
  %24 = add nsw i64 %19, %16
  %25 = getelementptr inbounds float, ptr %0, i64 %24
  store float %38, ptr %25, align 4, !tbaa !24
  %26 = add nuw nsw i64 %19, 1
  %27 = icmp eq i64 %26, %11
  br i1 %27, label %20, label %18, !llvm.loop !26

28:                                               ; preds = %28, %18
  %29 = phi i64 [ 0, %18 ], [ %39, %28 ]
  %30 = phi float [ 0.000000e+00, %18 ], [ %38, %28 ]
  %31 = add nsw i64 %29, %15
  %32 = getelementptr inbounds float, ptr %1, i64 %31
  %33 = load float, ptr %32, align 4, !tbaa !24
  %34 = mul nsw i64 %29, %7
  %35 = add nsw i64 %34, %19
  %36 = getelementptr inbounds float, ptr %2, i64 %35
  %37 = load float, ptr %36, align 4, !tbaa !24
  %38 = call float @llvm.fmuladd.f32(float %33, float %37, float %30)
  %39 = add nuw nsw i64 %29, 1
  %40 = icmp eq i64 %39, %12
  br i1 %40, label %23, label %28, !llvm.loop !27
}

define dso_local i32 @l_break(i32 noundef %0) local_unnamed_addr #0 {
  br label %2

2:                                                ; preds = %10, %1
  %3 = phi i32 [ 0, %1 ], [ %12, %10 ]
  %4 = phi i32 [ 0, %1 ], [ %11, %10 ]
  %5 = urem i32 %3, 3
  %6 = icmp eq i32 %5, 0
  br i1 %6, label %10, label %7

7:                                                ; preds = %2
  %8 = icmp sgt i32 %4, %0
  %9 = add nsw i32 %4, %3
  br i1 %8, label %13, label %10

10:                                               ; preds = %7, %2
  %11 = phi i32 [ %4, %2 ], [ %9, %7 ]
  %12 = add nuw nsw i32 %3, 1
  br label %2, !llvm.loop !28

13:                                               ; preds = %7
  ret i32 %9
}

define dso_local void @l_fill(ptr nocapture noundef writeonly %0, i32 noundef %1) local_unnamed_addr #6 {
  %3 = icmp sgt i32 %1, 0
  br i1 %3, label %4, label %6

4:                                                ; preds = %2
  %5 = zext i32 %1 to i64
  br label %7

6:                                                ; preds = %7, %2
  ret void

7:                                                ; preds = %7, %4
  %8 = phi i64 [ 0, %4 ], [ %10, %7 ]
  %9 = getelementptr inbounds i32, ptr %0, i64 %8
  store i32 7, ptr %9, align 4, !tbaa !9
  %10 = add nuw nsw i64 %8, 1
  %11 = icmp eq i64 %10, %5
  br i1 %11, label %6, label %7, !llvm.loop !29
}

define dso_local i32 @m_field(ptr nocapture noundef readonly %0) local_unnamed_addr #0 {
  %2 = getelementptr inbounds %struct.point, ptr %0, i64 0, i32 0
  %3 = load i32, ptr %2, align 4, !tbaa !5
  %4 = getelementptr inbounds %struct.point, ptr %0, i64 0, i32 1
  %5 = load i32, ptr %4, align 4, !tbaa !10
  %6 = mul nsw i32 %5, %3
  ret i32 %6
}

define dso_local void @m_set(ptr nocapture noundef writeonly %0, double noundef %1) local_unnamed_addr #1 {
  %3 = getelementptr inbounds %struct.cue, ptr %0, i64 0, i32 2
  store double %1, ptr %3, align 8, !tbaa !11
  %4 = getelementptr inbounds %struct.cue, ptr %0, i64 0, i32 1, i32 1
  store i32 9, ptr %4, align 4, !tbaa !15
  ret void
}

define dso_local i64 @m_point(i32 noundef %0, i32 noundef %1) local_unnamed_addr #2 {
  %3 = zext i32 %1 to i64
  %4 = shl nuw i64 %3, 32
  %5 = zext i32 %0 to i64
  %6 = or i64 %4, %5
  ret i64 %6
}

define dso_local void @m_cue(ptr noalias nocapture writeonly sret(%struct.cue) align 8 %0) local_unnamed_addr #3 {
  %2 = getelementptr inbounds %struct.cue, ptr %0, i64 0, i32 0, i64 0
  call void @llvm.memcpy.p0.p0.i64(ptr noundef nonnull align 8 dereferenceable(40) %2, ptr noundef nonnull align 8 dereferenceable(40) getelementptr inbounds (%struct.cue, ptr @__const.m_cue.c, i64 0, i32 0, i64 0), i64 40, i1 false)
  ret void
}

define dso_local void @m_byval(ptr nocapture noundef readonly byval(%struct.cue) align 8 %0, ptr nocapture noundef writeonly %1) local_unnamed_addr #4 {
  %3 = getelementptr inbounds %struct.cue, ptr %0, i64 0, i32 1, i32 0
  %4 = load i32, ptr %3, align 8, !tbaa !16
  %5 = getelementptr inbounds %struct.cue, ptr %0, i64 0, i32 2
  %6 = load double, ptr %5, align 8, !tbaa !11
  %7 = fptosi double %6 to i32
  %8 = add nsw i32 %4, %7
  store i32 %8, ptr %1, align 4, !tbaa !17
  ret void
}

define dso_local i32 @m_tight(ptr nocapture noundef readonly %0) local_unnamed_addr #0 {
  %2 = getelementptr inbounds %struct.tight, ptr %0, i64 0, i32 1
  %3 = load i32, ptr %2, align 1, !tbaa !18
  %4 = getelementptr inbounds %struct.tight, ptr %0, i64 0, i32 2
  %5 = load i16, ptr %4, align 1, !tbaa !21
  %6 = sext i16 %5 to i32
  %7 = add nsw i32 %3, %6
  %8 = getelementptr inbounds %struct.tight, ptr %0, i64 0, i32 0
  %9 = load i8, ptr %8, align 1, !tbaa !22
  %10 = sext i8 %9 to i32
  %11 = add nsw i32 %7, %10
  ret i32 %11
}

define dso_local i32 @m_union(float noundef %0) local_unnamed_addr #2 {
  %2 = bitcast float %0 to i32
  ret i32 %2
}

define dso_local i32 @m_bitfield(i32 %0) local_unnamed_addr #2 {
  %2 = and i32 %0, 7
  %3 = lshr i32 %0, 3
  %4 = and i32 %3, 31
  %5 = lshr i32 %0, 8
  %6 = mul nuw nsw i32 %4, %5
  %7 = add nuw nsw i32 %6, %2
  ret i32 %7
}

define dso_local i32 @m_lookup(i32 noundef %0) local_unnamed_addr #0 {
  %2 = and i32 %0, 15
  %3 = zext i32 %2 to i64
  %4 = getelementptr inbounds [16 x i32], ptr @lookup, i64 0, i64 %3
  %5 = load i32, ptr %4, align 4, !tbaa !17
  %6 = and i32 %0, 7
  %7 = zext i32 %6 to i64
  %8 = getelementptr inbounds [8 x i32], ptr @table, i64 0, i64 %7
  %9 = load i32, ptr %8, align 4, !tbaa !17
  %10 = add nsw i32 %9, %5
  ret i32 %10
}

define dso_local i32 @m_matrix(i32 noundef %0, i32 noundef %1) local_unnamed_addr #4 {
  %3 = sext i32 %0 to i64
  %4 = sext i32 %1 to i64
  %5 = getelementptr inbounds [4 x [5 x i32]], ptr @matrix, i64 0, i64 %3, i64 %4
  %6 = load i32, ptr %5, align 4, !tbaa !17
  %7 = add nsw i32 %6, 1
  store i32 %7, ptr %5, align 4, !tbaa !17
  ret i32 %7
}

define dso_local i32 @m_global() local_unnamed_addr #0 {
  %1 = load i32, ptr getelementptr inbounds (%struct.point, ptr @corner, i64 0, i32 0), align 4, !tbaa !5
  %2 = load i32, ptr getelementptr inbounds ([4 x %struct.cue], ptr @show, i64 0, i64 2, i32 1, i32 1), align 4, !tbaa !15
  %3 = add nsw i32 %2, %1
  ret i32 %3
}

define dso_local nonnull ptr @m_address(i32 noundef %0) local_unnamed_addr #2 {
  %2 = sext i32 %0 to i64
  %3 = getelementptr inbounds [8 x i32], ptr @table, i64 0, i64 %2
  ret ptr %3
}

define dso_local i64 @m_offset() local_unnamed_addr #2 {
  ret i64 24
}

define dso_local void @m_copy(ptr nocapture noundef writeonly %0, ptr nocapture noundef readonly %1) local_unnamed_addr #3 {
  %3 = getelementptr %struct.cue, ptr %0, i64 0, i32 0, i64 0
  %4 = getelementptr %struct.cue, ptr %1, i64 0, i32 0, i64 0
  call void @llvm.memcpy.p0.p0.i64(ptr noundef nonnull align 8 dereferenceable(40) %3, ptr noundef nonnull align 8 dereferenceable(40) %4, i64 40, i1 false), !tbaa.struct !23
  ret void
}

define dso_local void @m_clear(ptr nocapture noundef writeonly %0, i64 noundef %1) local_unnamed_addr #5 {
  call void @llvm.memset.p0.i64(ptr align 1 %0, i8 0, i64 %1, i1 false)
  ret void
}

define dso_local void @m_move(ptr nocapture noundef writeonly %0, ptr nocapture noundef readonly %1, i64 noundef %2) local_unnamed_addr #3 {
  call void @llvm.memcpy.p0.p0.i64(ptr align 1 %0, ptr align 1 %1, i64 %2, i1 false)
  %4 = getelementptr inbounds i8, ptr %0, i64 1
  call void @llvm.memmove.p0.p0.i64(ptr nonnull align 1 %4, ptr align 1 %1, i64 %2, i1 false)
  ret void
}

define dso_local i32 @m_local(i32 noundef %0) local_unnamed_addr #6 {
  %2 = alloca [10 x i32], align 16
  %3 = bitcast ptr %2 to ptr
  call void @llvm.lifetime.start.p0(i64 40, ptr nonnull %3) #13
  call void @llvm.memset.p0.i64(ptr noundef nonnull align 16 dereferenceable(40) %3, i8 0, i64 40, i1 false)
  %4 = getelementptr inbounds [10 x i32], ptr %2, i64 0, i64 0
  store i32 1, ptr %4, align 16
  %5 = getelementptr inbounds [10 x i32], ptr %2, i64 0, i64 1
  store i32 2, ptr %5, align 4
  %6 = getelementptr inbounds [10 x i32], ptr %2, i64 0, i64 2
  store i32 3, ptr %6, align 8
  %7 = srem i32 %0, 10
  %8 = sext i32 %7 to i64
  %9 = getelementptr inbounds [10 x i32], ptr %2, i64 0, i64 %8
  store i32 %0, ptr %9, align 4, !tbaa !17
  br label %11

10:                                               ; preds = %11
  call void @llvm.lifetime.end.p0(i64 40, ptr nonnull %3) #13
  ret i32 %16

11:                                               ; preds = %11, %1
  %12 = phi i64 [ 0, %1 ], [ %17, %11 ]
  %13 = phi i32 [ 0, %1 ], [ %16, %11 ]
  %14 = getelementptr inbounds [10 x i32], ptr %2, i64 0, i64 %12
  %15 = load i32, ptr %14, align 4, !tbaa !17
  %16 = add nsw i32 %15, %13
  %17 = add nuw nsw i64 %12, 1
  %18 = icmp eq i64 %17, 10
  br i1 %18, label %10, label %11, !llvm.loop !27
}

define dso_local i32 @m_vla(i32 noundef %0) local_unnamed_addr #7 {
  %2 = zext i32 %0 to i64
  %3 = alloca i32, i64 %2, align 16
  %4 = icmp sgt i32 %0, 0
  br i1 %4, label %5, label %7

5:                                                ; preds = %1
  %6 = zext i32 %0 to i64
  br label %12

7:                                                ; preds = %12, %1
  %8 = sdiv i32 %0, 2
  %9 = sext i32 %8 to i64
  %10 = getelementptr inbounds i32, ptr %3, i64 %9
  %11 = load i32, ptr %10, align 4, !tbaa !17
  ret i32 %11

12:                                               ; preds = %12, %5
  %13 = phi i64 [ 0, %5 ], [ %17, %12 ]
  %14 = trunc i64 %13 to i32
  %15 = mul nsw i32 %14, %14
  %16 = getelementptr inbounds i32, ptr %3, i64 %13
  store i32 %15, ptr %16, align 4, !tbaa !17
  %17 = add nuw nsw i64 %13, 1
  %18 = icmp eq i64 %17, %6
  br i1 %18, label %7, label %12, !llvm.loop !30
}

define dso_local i64 @m_strlen(ptr noundef %0) local_unnamed_addr #8 {
  br label %2

2:                                                ; preds = %2, %1
  %3 = phi ptr [ %0, %1 ], [ %6, %2 ]
  %4 = load i8, ptr %3, align 1, !tbaa !24
  %5 = icmp eq i8 %4, 0
  %6 = getelementptr inbounds i8, ptr %3, i64 1
  br i1 %5, label %7, label %2, !llvm.loop !31

7:                                                ; preds = %2
  %8 = ptrtoint ptr %3 to i64
  %9 = ptrtoint ptr %0 to i64
  %10 = sub i64 %8, %9
  ret i64 %10
}

define dso_local ptr @m_text() local_unnamed_addr #2 {
  ret ptr getelementptr inbounds ([9 x i8], ptr @m_text.text, i64 0, i64 0)
}

define dso_local ptr @m_list(ptr noundef readonly %0) local_unnamed_addr #8 {
  br label %2

2:                                                ; preds = %5, %1
  %3 = phi ptr [ %0, %1 ], [ %7, %5 ]
  %4 = icmp eq ptr %3, null
  br i1 %4, label %9, label %5

5:                                                ; preds = %2
  %6 = getelementptr inbounds %struct.cue, ptr %3, i64 0, i32 3
  %7 = load ptr, ptr %6, align 8, !tbaa !32
  %8 = icmp eq ptr %7, null
  br i1 %8, label %9, label %2, !llvm.loop !33

9:                                                ; preds = %5, %2
  ret ptr %3
}

define dso_local i32 @m_sum(ptr noundef readonly %0) local_unnamed_addr #8 {
  %2 = icmp eq ptr %0, null
  br i1 %2, label %12, label %3

3:                                                ; preds = %3, %1
  %4 = phi i32 [ %8, %3 ], [ 0, %1 ]
  %5 = phi ptr [ %10, %3 ], [ %0, %1 ]
  %6 = getelementptr inbounds %struct.cue, ptr %5, i64 0, i32 1, i32 0
  %7 = load i32, ptr %6, align 8, !tbaa !16
  %8 = add nsw i32 %7, %4
  %9 = getelementptr inbounds %struct.cue, ptr %5, i64 0, i32 3
  %10 = load ptr, ptr %9, align 8, !tbaa !32
  %11 = icmp eq ptr %10, null
  br i1 %11, label %12, label %3, !llvm.loop !34

12:                                               ; preds = %3, %1
  %13 = phi i32 [ 0, %1 ], [ %8, %3 ]
  ret i32 %13
}

define dso_local i64 @m_difference(ptr noundef %0, ptr noundef %1) local_unnamed_addr #2 {
  %3 = ptrtoint ptr %0 to i64
  %4 = ptrtoint ptr %1 to i64
  %5 = sub i64 %3, %4
  %6 = ashr exact i64 %5, 2
  ret i64 %6
}

define dso_local i32 @m_volatile(ptr noundef %0) local_unnamed_addr #9 {
  store volatile i32 3, ptr %0, align 4, !tbaa !17
  %2 = load volatile i32, ptr %0, align 4, !tbaa !17
  %3 = load volatile i32, ptr %0, align 4, !tbaa !17
  %4 = add nsw i32 %3, %2
  ret i32 %4
}

define dso_local void @m_swap(ptr noalias nocapture noundef %0, ptr noalias nocapture noundef %1) local_unnamed_addr #4 {
  %3 = load i32, ptr %0, align 4, !tbaa !17
  %4 = load i32, ptr %1, align 4, !tbaa !17
  store i32 %4, ptr %0, align 4, !tbaa !17
  store i32 %3, ptr %1, align 4, !tbaa !17
  ret void
}

define dso_local i32 @m_aligned(i32 noundef %0) local_unnamed_addr #0 {
  %2 = sext i32 %0 to i64
  %3 = getelementptr inbounds [16 x i32], ptr @aligned, i64 0, i64 %2
  %4 = load i32, ptr %3, align 4, !tbaa !17
  ret i32 %4
}

define dso_local signext i8 @n_add8(i8 noundef signext %0, i8 noundef signext %1) local_unnamed_addr #0 {
  %3 = add i8 %1, %0
  ret i8 %3
}

define dso_local zeroext i16 @n_mul16(i16 noundef zeroext %0, i16 noundef zeroext %1) local_unnamed_addr #0 {
  %3 = mul i16 %1, %0
  ret i16 %3
}

define dso_local i64 @n_div64(i64 noundef %0, i64 noundef %1) local_unnamed_addr #0 {
  %3 = sdiv i64 %0, %1
  ret i64 %3
}

define dso_local i64 @n_rem64(i64 noundef %0, i64 noundef %1) local_unnamed_addr #0 {
  %3 = urem i64 %0, %1
  ret i64 %3
}

define dso_local { i64, i64 } @n_wide(i64 noundef %0, i64 noundef %1, i64 noundef %2, i64 noundef %3) local_unnamed_addr #0 {
  %5 = zext i64 %1 to i128
  %6 = shl nuw i128 %5, 64
  %7 = zext i64 %0 to i128
  %8 = or i128 %6, %7
  %9 = zext i64 %3 to i128
  %10 = shl nuw i128 %9, 64
  %11 = zext i64 %2 to i128
  %12 = or i128 %10, %11
  %13 = mul nsw i128 %12, %8
  %14 = add nsw i128 %13, 1267650600228229401496703205376
  %15 = trunc i128 %14 to i64
  %16 = lshr i128 %14, 64
  %17 = trunc i128 %16 to i64
  %18 = insertvalue { i64, i64 } poison, i64 %15, 0
  %19 = insertvalue { i64, i64 } %18, i64 %17, 1
  ret { i64, i64 } %19
}

define dso_local { i64, i64 } @n_big() local_unnamed_addr #0 {
  ret { i64, i64 } { i64 42, i64 81985529216486895 }
}

define dso_local i32 @n_rotate(i32 noundef %0, i32 noundef %1) local_unnamed_addr #1 {
  %3 = call i32 @llvm.fshl.i32(i32 %0, i32 %0, i32 %1)
  ret i32 %3
}

define dso_local i32 @n_shift(i32 noundef %0, i32 noundef %1) local_unnamed_addr #0 {
  %3 = ashr i32 %0, %1
  %4 = lshr i32 %0, %1
  %5 = shl i32 %0, 3
  %6 = add i32 %4, %5
  %7 = add i32 %6, %3
  ret i32 %7
}

define dso_local i32 @n_bits(i32 noundef %0, i32 noundef %1) local_unnamed_addr #0 {
  %3 = xor i32 %0, %1
  %4 = xor i32 %3, -1
  ret i32 %4
}

define dso_local i32 @n_narrow(i64 noundef %0) local_unnamed_addr #0 {
  %2 = trunc i64 %0 to i32
  %3 = shl i32 %2, 24
  %4 = ashr exact i32 %3, 24
  %5 = shl i32 %2, 16
  %6 = ashr exact i32 %5, 16
  %7 = add i32 %6, %2
  %8 = add i32 %7, %4
  ret i32 %8
}

define dso_local i64 @n_widen(i8 noundef signext %0, i8 noundef zeroext %1, i16 noundef signext %2) local_unnamed_addr #0 {
  %4 = sext i8 %0 to i64
  %5 = zext i8 %1 to i64
  %6 = add nsw i64 %5, %4
  %7 = sext i16 %2 to i64
  %8 = add nsw i64 %6, %7
  ret i64 %8
}

define dso_local zeroext i1 @n_bool(i32 noundef %0, i32 noundef %1) local_unnamed_addr #0 {
  %3 = icmp slt i32 %0, %1
  %4 = icmp ne i32 %1, 3
  %5 = and i1 %3, %4
  ret i1 %5
}

define dso_local float @f_mix(float noundef %0, float noundef %1, float noundef %2) local_unnamed_addr #1 {
  %4 = fsub float %1, %0
  %5 = call float @llvm.fmuladd.f32(float %4, float %2, float %0)
  ret float %5
}

define dso_local double @f_poly(double noundef %0) local_unnamed_addr #1 {
  %2 = call double @llvm.fmuladd.f64(double %0, double 1.500000e+00, double -1.000000e-01)
  %3 = call double @llvm.fmuladd.f64(double %2, double %0, double 3.250000e+00)
  %4 = call double @llvm.fmuladd.f64(double %3, double %0, double -1.000000e-03)
  ret double %4
}

define dso_local double @f_div(double noundef %0, double noundef %1) local_unnamed_addr #0 {
  %3 = fdiv double %0, %1
  ret double %3
}

define dso_local float @f_neg(float noundef %0) local_unnamed_addr #0 {
  %2 = fneg float %0
  ret float %2
}

define dso_local double @f_ext(float noundef %0) local_unnamed_addr #0 {
  %2 = fpext float %0 to double
  %3 = fmul double %2, 2.000000e+00
  ret double %3
}

define dso_local float @f_trunc(double noundef %0) local_unnamed_addr #0 {
  %2 = fdiv double %0, 3.000000e+00
  %3 = fptrunc double %2 to float
  ret float %3
}

define dso_local i32 @f_int(double noundef %0) local_unnamed_addr #0 {
  %2 = fptosi double %0 to i32
  ret i32 %2
}

define dso_local i32 @f_uint(float noundef %0) local_unnamed_addr #0 {
  %2 = fptoui float %0 to i32
  ret i32 %2
}

define dso_local float @f_from(i32 noundef %0) local_unnamed_addr #0 {
  %2 = sitofp i32 %0 to float
  ret float %2
}

define dso_local double @f_fromu(i64 noundef %0) local_unnamed_addr #0 {
  %2 = uitofp i64 %0 to double
  ret double %2
}

define dso_local i32 @f_compare(double noundef %0, double noundef %1) local_unnamed_addr #0 {
  %3 = fcmp olt double %0, %1
  %4 = zext i1 %3 to i32
  %5 = fcmp ole double %0, %1
  %6 = select i1 %5, i32 2, i32 0
  %7 = or i32 %6, %4
  %8 = fcmp oeq double %0, %1
  %9 = select i1 %8, i32 4, i32 0
  %10 = or i32 %7, %9
  %11 = fcmp une double %0, %1
  %12 = select i1 %11, i32 8, i32 0
  %13 = or i32 %10, %12
  %14 = fcmp ogt double %0, %1
  %15 = select i1 %14, i32 16, i32 0
  %16 = or i32 %13, %15
  ret i32 %16
}

define dso_local i32 @f_unordered(float noundef %0, float noundef %1) local_unnamed_addr #0 {
  %3 = fcmp uge float %0, %1
  %4 = zext i1 %3 to i32
  %5 = fcmp ult float %0, %1
  %6 = select i1 %5, i32 2, i32 0
  %7 = or i32 %6, %4
  %8 = fcmp uno float %0, %1
  %9 = select i1 %8, i32 4, i32 0
  %10 = or i32 %7, %9
  ret i32 %10
}

define dso_local double @f_max(double noundef %0, double noundef %1) local_unnamed_addr #0 {
  %3 = fcmp ogt double %0, %1
  %4 = select i1 %3, double %0, double %1
  ret double %4
}

define dso_local float @f_infinite(i32 noundef %0) local_unnamed_addr #0 {
  %2 = icmp eq i32 %0, 0
  %3 = select i1 %2, float 0xFFF0000000000000, float 0x7FF0000000000000
  ret float %3
}

define dso_local double @f_nan() local_unnamed_addr #0 {
  ret double 0x7FF8000000000000
}

define dso_local float @f_third(float noundef %0) local_unnamed_addr #0 {
  %2 = fadd float %0, 0x3FD5555560000000
  ret float %2
}

define dso_local double @f_sum(ptr nocapture noundef readonly %0, i32 noundef %1) local_unnamed_addr #3 {
  %3 = icmp sgt i32 %1, 0
  br i1 %3, label %4, label %6

4:                                                ; preds = %2
  %5 = zext i32 %1 to i64
  br label %8

6:                                                ; preds = %8, %2
  %7 = phi double [ 0.000000e+00, %2 ], [ %13, %8 ]
  ret double %7

8:                                                ; preds = %8, %4
  %9 = phi i64 [ 0, %4 ], [ %14, %8 ]
  %10 = phi double [ 0.000000e+00, %4 ], [ %13, %8 ]
  %11 = getelementptr inbounds double, ptr %0, i64 %9
  %12 = load double, ptr %11, align 8, !tbaa !5
  %13 = fadd double %10, %12
  %14 = add nuw nsw i64 %9, 1
  %15 = icmp eq i64 %14, %5
  br i1 %15, label %6, label %8, !llvm.loop !9
}

define dso_local float @f_rem(float noundef %0, float noundef %1) local_unnamed_addr #4 {
  %3 = call float @fmodf(float noundef %0, float noundef %1) #6
  ret float %3
}

