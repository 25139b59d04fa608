define dso_local void @p_same(ptr dead_on_unwind noalias writable sret(%struct.cue) align 8 %0, ptr dead_on_return noundef %1) #0 {
  %3 = alloca ptr, align 8
  store ptr %1, ptr %3, align 8
  call void @llvm.memcpy.p0.p0.i64(ptr align 8 %0, ptr align 8 %1, i64 56, i1 false)
  ret void
}

define dso_local void @p_shift(ptr dead_on_unwind noalias writable sret(%struct.cue) align 8 %0, ptr dead_on_return noundef %1, i64 noundef %2) #0 {
  %4 = alloca ptr, align 8
  %5 = alloca i64, align 8
  %6 = alloca i32, align 4
  store ptr %1, ptr %4, align 8
  store i64 %2, ptr %5, align 8
  store i32 0, ptr %6, align 4
  br label %7

7:                                                ; preds = %19, %3
  %8 = load i32, ptr %6, align 4
  %9 = icmp slt i32 %8, 3
  br i1 %9, label %10, label %22

10:                                               ; preds = %7
  %11 = load i64, ptr %5, align 8
  %12 = getelementptr inbounds nuw %struct.cue, ptr %1, i32 0, i32 0
  %13 = load i32, ptr %6, align 4
  %14 = sext i32 %13 to i64
  %15 = getelementptr inbounds [3 x %struct.bar], ptr %12, i64 0, i64 %14
  %16 = getelementptr inbounds nuw %struct.bar, ptr %15, i32 0, i32 0
  %17 = load i64, ptr %16, align 8
  %18 = add nsw i64 %17, %11
  store i64 %18, ptr %16, align 8
  br label %19

19:                                               ; preds = %10
  %20 = load i32, ptr %6, align 4
  %21 = add nsw i32 %20, 1
  store i32 %21, ptr %6, align 4
  br label %7, !llvm.loop !6

22:                                               ; preds = %7
  call void @llvm.memcpy.p0.p0.i64(ptr align 8 %0, ptr align 8 %1, i64 56, i1 false)
  ret void
}

define dso_local i32 @p_level(ptr dead_on_return noundef %0, i32 noundef %1) #0 {
  %3 = alloca ptr, align 8
  %4 = alloca i32, align 4
  store ptr %0, ptr %3, align 8
  store i32 %1, ptr %4, align 4
  %5 = getelementptr inbounds nuw %struct.cue, ptr %0, i32 0, i32 0
  %6 = load i32, ptr %4, align 4
  %7 = sext i32 %6 to i64
  %8 = getelementptr inbounds [3 x %struct.bar], ptr %5, i64 0, i64 %7
  %9 = getelementptr inbounds nuw %struct.bar, ptr %8, i32 0, i32 1
  %10 = load i32, ptr %9, align 8
  ret i32 %10
}

define dso_local double @p_hold(ptr dead_on_return noundef %0) #0 {
  %2 = alloca ptr, align 8
  store ptr %0, ptr %2, align 8
  %3 = getelementptr inbounds nuw %struct.cue, ptr %0, i32 0, i32 1
  %4 = load double, ptr %3, align 8
  ret double %4
}

define dso_local i64 @p_both(ptr dead_on_return noundef %0, ptr dead_on_return noundef %1) #0 {
  %3 = alloca ptr, align 8
  %4 = alloca ptr, align 8
  store ptr %0, ptr %3, align 8
  store ptr %1, ptr %4, align 8
  %5 = getelementptr inbounds nuw %struct.cue, ptr %0, i32 0, i32 0
  %6 = getelementptr inbounds [3 x %struct.bar], ptr %5, i64 0, i64 0
  %7 = getelementptr inbounds nuw %struct.bar, ptr %6, i32 0, i32 0
  %8 = load i64, ptr %7, align 8
  %9 = getelementptr inbounds nuw %struct.cue, ptr %1, i32 0, i32 0
  %10 = getelementptr inbounds [3 x %struct.bar], ptr %9, i64 0, i64 2
  %11 = getelementptr inbounds nuw %struct.bar, ptr %10, i32 0, i32 0
  %12 = load i64, ptr %11, align 8
  %13 = sub nsw i64 %8, %12
  ret i64 %13
}

define dso_local void @p_fire(ptr dead_on_return noundef %0, i32 noundef %1) #0 {
  %3 = alloca ptr, align 8
  %4 = alloca i32, align 4
  %5 = alloca %struct.cue, align 8
  store ptr %0, ptr %3, align 8
  store i32 %1, ptr %4, align 4
  br label %6

6:                                                ; preds = %10, %2
  %7 = load i32, ptr %4, align 4
  %8 = add nsw i32 %7, -1
  store i32 %8, ptr %4, align 4
  %9 = icmp sgt i32 %7, 0
  br i1 %9, label %10, label %11

10:                                               ; preds = %6
  call void @llvm.memcpy.p0.p0.i64(ptr align 8 %5, ptr align 8 %0, i64 56, i1 false)
  call void @fire(ptr dead_on_return noundef %5)
  br label %6, !llvm.loop !8

11:                                               ; preds = %6
  ret void
}

define dso_local void @p_fire_next(i32 noundef %0) #0 {
  %2 = alloca i32, align 4
  %3 = alloca %struct.cue, align 8
  store i32 %0, ptr %2, align 4
  %4 = load i32, ptr %2, align 4
  call void @next(ptr dead_on_unwind writable sret(%struct.cue) align 8 %3, i32 noundef %4)
  call void @fire(ptr dead_on_return noundef %3)
  ret void
}

define dso_local void @p_pick(ptr dead_on_unwind noalias writable sret(%struct.cue) align 8 %0, ptr dead_on_return noundef %1, ptr dead_on_return noundef %2, i32 noundef %3) #0 {
  %5 = alloca ptr, align 8
  %6 = alloca ptr, align 8
  %7 = alloca i32, align 4
  store ptr %1, ptr %5, align 8
  store ptr %2, ptr %6, align 8
  store i32 %3, ptr %7, align 4
  %8 = load i32, ptr %7, align 4
  %9 = icmp ne i32 %8, 0
  br i1 %9, label %10, label %11

10:                                               ; preds = %4
  call void @llvm.memcpy.p0.p0.i64(ptr align 8 %0, ptr align 8 %1, i64 56, i1 false)
  br label %12

11:                                               ; preds = %4
  call void @llvm.memcpy.p0.p0.i64(ptr align 8 %0, ptr align 8 %2, i64 56, i1 false)
  br label %12

12:                                               ; preds = %11, %10
  ret void
}

define dso_local i32 @p_show(ptr dead_on_return noundef %0) #0 {
  %2 = alloca ptr, align 8
  %3 = alloca i32, align 4
  %4 = alloca i32, align 4
  %5 = alloca %struct.show, align 8
  store ptr %0, ptr %2, align 8
  store i32 0, ptr %3, align 4
  store i32 0, ptr %4, align 4
  br label %6

6:                                                ; preds = %22, %1
  %7 = load i32, ptr %4, align 4
  %8 = getelementptr inbounds nuw %struct.show, ptr %0, i32 0, i32 1
  %9 = load i32, ptr %8, align 8
  %10 = icmp slt i32 %7, %9
  br i1 %10, label %11, label %25

11:                                               ; preds = %6
  %12 = getelementptr inbounds nuw %struct.show, ptr %0, i32 0, i32 0
  %13 = load i32, ptr %4, align 4
  %14 = sext i32 %13 to i64
  %15 = getelementptr inbounds [4 x %struct.cue], ptr %12, i64 0, i64 %14
  %16 = getelementptr inbounds nuw %struct.cue, ptr %15, i32 0, i32 0
  %17 = getelementptr inbounds [3 x %struct.bar], ptr %16, i64 0, i64 0
  %18 = getelementptr inbounds nuw %struct.bar, ptr %17, i32 0, i32 1
  %19 = load i32, ptr %18, align 8
  %20 = load i32, ptr %3, align 4
  %21 = add nsw i32 %20, %19
  store i32 %21, ptr %3, align 4
  br label %22

22:                                               ; preds = %11
  %23 = load i32, ptr %4, align 4
  %24 = add nsw i32 %23, 1
  store i32 %24, ptr %4, align 4
  br label %6, !llvm.loop !9

25:                                               ; preds = %6
  %26 = load i32, ptr %3, align 4
  call void @llvm.memcpy.p0.p0.i64(ptr align 8 %5, ptr align 8 %0, i64 232, i1 false)
  %27 = call i32 @judge_show(ptr dead_on_return noundef %5, i32 noundef %26)
  ret i32 %27
}

define dso_local void @p_add(ptr dead_on_unwind noalias writable sret(%struct.show) align 8 %0, ptr dead_on_return noundef %1, ptr dead_on_return noundef %2) #0 {
  %4 = alloca ptr, align 8
  %5 = alloca ptr, align 8
  store ptr %1, ptr %4, align 8
  store ptr %2, ptr %5, align 8
  %6 = getelementptr inbounds nuw %struct.show, ptr %1, i32 0, i32 1
  %7 = load i32, ptr %6, align 8
  %8 = icmp slt i32 %7, 4
  br i1 %8, label %9, label %16

9:                                                ; preds = %3
  %10 = getelementptr inbounds nuw %struct.show, ptr %1, i32 0, i32 0
  %11 = getelementptr inbounds nuw %struct.show, ptr %1, i32 0, i32 1
  %12 = load i32, ptr %11, align 8
  %13 = add nsw i32 %12, 1
  store i32 %13, ptr %11, align 8
  %14 = sext i32 %12 to i64
  %15 = getelementptr inbounds [4 x %struct.cue], ptr %10, i64 0, i64 %14
  call void @llvm.memcpy.p0.p0.i64(ptr align 8 %15, ptr align 8 %2, i64 56, i1 false)
  br label %16

16:                                               ; preds = %9, %3
  call void @llvm.memcpy.p0.p0.i64(ptr align 8 %0, ptr align 8 %1, i64 232, i1 false)
  ret void
}

define dso_local float @p_pixels(ptr dead_on_return noundef %0, i32 noundef %1) #0 {
  %3 = alloca float, align 4
  %4 = alloca ptr, align 8
  %5 = alloca i32, align 4
  store ptr %0, ptr %4, align 8
  store i32 %1, ptr %5, align 4
  %6 = load i32, ptr %5, align 4
  switch i32 %6, label %16 [
    i32 0, label %7
    i32 1, label %11
  ]

7:                                                ; preds = %2
  %8 = getelementptr inbounds nuw %struct.pixels, ptr %0, i32 0, i32 0
  %9 = getelementptr inbounds [9 x float], ptr %8, i64 0, i64 0
  %10 = load float, ptr %9, align 4
  store float %10, ptr %3, align 4
  br label %20

11:                                               ; preds = %2
  %12 = getelementptr inbounds nuw %struct.pixels, ptr %0, i32 0, i32 0
  %13 = getelementptr inbounds [9 x float], ptr %12, i64 0, i64 4
  %14 = load float, ptr %13, align 4
  %15 = fmul float %14, 2.000000e+00
  store float %15, ptr %3, align 4
  br label %20

16:                                               ; preds = %2
  %17 = getelementptr inbounds nuw %struct.pixels, ptr %0, i32 0, i32 0
  %18 = getelementptr inbounds [9 x float], ptr %17, i64 0, i64 8
  %19 = load float, ptr %18, align 4
  store float %19, ptr %3, align 4
  br label %20

20:                                               ; preds = %16, %11, %7
  %21 = load float, ptr %3, align 4
  ret float %21
}

define dso_local void @p_log(ptr dead_on_return noundef %0) #0 {
  %2 = alloca ptr, align 8
  %3 = alloca %struct.cue, align 8
  %4 = alloca %struct.cue, align 8
  %5 = alloca %struct.cue, align 8
  store ptr %0, ptr %2, align 8
  call void @llvm.memcpy.p0.p0.i64(ptr align 8 %4, ptr align 8 %0, i64 56, i1 false)
  call void @p_same(ptr dead_on_unwind writable sret(%struct.cue) align 8 %3, ptr dead_on_return noundef %4)
  call void @llvm.memcpy.p0.p0.i64(ptr align 8 %5, ptr align 8 %0, i64 56, i1 false)
  call void @log_two(ptr dead_on_return noundef %5, ptr dead_on_return noundef %3, ptr noundef @.str)
  ret void
}

define dso_local i32 @p_by_call(ptr noundef %0, ptr dead_on_return noundef %1) #0 {
  %3 = alloca ptr, align 8
  %4 = alloca ptr, align 8
  %5 = alloca %struct.cue, align 8
  store ptr %0, ptr %3, align 8
  store ptr %1, ptr %4, align 8
  %6 = load ptr, ptr %3, align 8
  call void @llvm.memcpy.p0.p0.i64(ptr align 8 %5, ptr align 8 %1, i64 56, i1 false)
  %7 = call i32 %6(ptr dead_on_return noundef %5, i32 noundef 7)
  ret i32 %7
}

