define dso_local void @p_same(ptr dead_on_unwind noalias writable writeonly sret(%struct.cue) align 8 captures(none) initializes((0, 56)) %0, ptr dead_on_return noundef readonly captures(none) %1) local_unnamed_addr #0 {
  tail call void @llvm.memcpy.p0.p0.i64(ptr noundef nonnull align 8 dereferenceable(56) %0, ptr noundef nonnull align 8 dereferenceable(56) %1, i64 56, i1 false), !tbaa.struct !10
  ret void
}

define dso_local void @p_shift(ptr dead_on_unwind noalias writable writeonly sret(%struct.cue) align 8 captures(none) initializes((0, 56)) %0, ptr dead_on_return noundef captures(none) %1, i64 noundef %2) local_unnamed_addr #0 {
  %4 = load i64, ptr %1, align 8, !tbaa !14
  %5 = add nsw i64 %4, %2
  store i64 %5, ptr %1, align 8, !tbaa !14
  %6 = getelementptr inbounds nuw i8, ptr %1, i64 16
  %7 = load i64, ptr %6, align 8, !tbaa !14
  %8 = add nsw i64 %7, %2
  store i64 %8, ptr %6, align 8, !tbaa !14
  %9 = getelementptr inbounds nuw i8, ptr %1, i64 32
  %10 = load i64, ptr %9, align 8, !tbaa !14
  %11 = add nsw i64 %10, %2
  store i64 %11, ptr %9, align 8, !tbaa !14
  tail call void @llvm.memcpy.p0.p0.i64(ptr noundef nonnull align 8 dereferenceable(56) %0, ptr noundef nonnull align 8 dereferenceable(56) %1, i64 56, i1 false), !tbaa.struct !10
  ret void
}

define dso_local i32 @p_level(ptr dead_on_return noundef readonly captures(none) %0, i32 noundef %1) local_unnamed_addr #3 {
  %3 = sext i32 %1 to i64
  %4 = getelementptr inbounds %struct.bar, ptr %0, i64 %3
  %5 = getelementptr inbounds nuw i8, ptr %4, i64 8
  %6 = load i32, ptr %5, align 8, !tbaa !17
  ret i32 %6
}

define dso_local double @p_hold(ptr dead_on_return noundef readonly captures(none) %0) local_unnamed_addr #3 {
  %2 = getelementptr inbounds nuw i8, ptr %0, i64 48
  %3 = load double, ptr %2, align 8, !tbaa !18
  ret double %3
}

define dso_local i64 @p_both(ptr dead_on_return noundef readonly captures(none) %0, ptr dead_on_return noundef readonly captures(none) %1) local_unnamed_addr #3 {
  %3 = load i64, ptr %0, align 8, !tbaa !14
  %4 = getelementptr inbounds nuw i8, ptr %1, i64 32
  %5 = load i64, ptr %4, align 8, !tbaa !14
  %6 = sub nsw i64 %3, %5
  ret i64 %6
}

define dso_local void @p_fire(ptr dead_on_return noundef readonly captures(none) %0, i32 noundef %1) local_unnamed_addr #4 {
  %3 = alloca %struct.cue, align 8
  %4 = icmp sgt i32 %1, 0
  br i1 %4, label %5, label %9

5:                                                ; preds = %2, %5
  %6 = phi i32 [ %7, %5 ], [ %1, %2 ]
  %7 = add nsw i32 %6, -1
  call void @llvm.lifetime.start.p0(ptr nonnull %3) #8
  call void @llvm.memcpy.p0.p0.i64(ptr noundef nonnull align 8 dereferenceable(56) %3, ptr noundef nonnull align 8 dereferenceable(56) %0, i64 56, i1 false), !tbaa.struct !10
  call void @fire(ptr dead_on_return noundef nonnull %3) #8
  call void @llvm.lifetime.end.p0(ptr nonnull %3) #8
  %8 = icmp samesign ugt i32 %6, 1
  br i1 %8, label %5, label %9, !llvm.loop !20

9:                                                ; preds = %5, %2
  ret void
}

define dso_local void @p_fire_next(i32 noundef %0) local_unnamed_addr #4 {
  %2 = alloca %struct.cue, align 8
  call void @next(ptr dead_on_unwind nonnull writable sret(%struct.cue) align 8 %2, i32 noundef %0) #8
  call void @fire(ptr dead_on_return noundef nonnull %2) #8
  ret void
}

define dso_local void @p_pick(ptr dead_on_unwind noalias writable writeonly sret(%struct.cue) align 8 captures(none) initializes((0, 56)) %0, ptr dead_on_return noundef readonly captures(none) %1, ptr dead_on_return noundef readonly captures(none) %2, i32 noundef %3) local_unnamed_addr #6 {
  %5 = icmp eq i32 %3, 0
  %6 = select i1 %5, ptr %2, ptr %1
  tail call void @llvm.memcpy.p0.p0.i64(ptr noundef nonnull align 8 dereferenceable(56) %0, ptr noundef nonnull align 8 dereferenceable(56) %6, i64 56, i1 false)
  ret void
}

define dso_local i32 @p_show(ptr dead_on_return noundef readonly captures(none) %0) local_unnamed_addr #4 {
  %2 = alloca %struct.show, align 8
  %3 = getelementptr inbounds nuw i8, ptr %0, i64 224
  %4 = load i32, ptr %3, align 8, !tbaa !22
  %5 = icmp sgt i32 %4, 0
  br i1 %5, label %6, label %58

6:                                                ; preds = %1
  %7 = zext nneg i32 %4 to i64
  %8 = icmp ult i32 %4, 8
  br i1 %8, label %55, label %9

9:                                                ; preds = %6
  %10 = and i64 %7, 2147483640
  br label %11

11:                                               ; preds = %11, %9
  %12 = phi i64 [ 0, %9 ], [ %49, %11 ]
  %13 = phi <4 x i32> [ zeroinitializer, %9 ], [ %47, %11 ]
  %14 = phi <4 x i32> [ zeroinitializer, %9 ], [ %48, %11 ]
  %15 = getelementptr inbounds nuw %struct.cue, ptr %0, i64 %12
  %16 = getelementptr inbounds nuw %struct.cue, ptr %0, i64 %12
  %17 = getelementptr inbounds nuw %struct.cue, ptr %0, i64 %12
  %18 = getelementptr inbounds nuw %struct.cue, ptr %0, i64 %12
  %19 = getelementptr inbounds nuw %struct.cue, ptr %0, i64 %12
  %20 = getelementptr inbounds nuw %struct.cue, ptr %0, i64 %12
  %21 = getelementptr inbounds nuw %struct.cue, ptr %0, i64 %12
  %22 = getelementptr inbounds nuw %struct.cue, ptr %0, i64 %12
  %23 = getelementptr inbounds nuw i8, ptr %15, i64 8
  %24 = getelementptr inbounds nuw i8, ptr %16, i64 64
  %25 = getelementptr inbounds nuw i8, ptr %17, i64 120
  %26 = getelementptr inbounds nuw i8, ptr %18, i64 176
  %27 = getelementptr inbounds nuw i8, ptr %19, i64 232
  %28 = getelementptr inbounds nuw i8, ptr %20, i64 288
  %29 = getelementptr inbounds nuw i8, ptr %21, i64 344
  %30 = getelementptr inbounds nuw i8, ptr %22, i64 400
  %31 = load i32, ptr %23, align 8, !tbaa !17
  %32 = load i32, ptr %24, align 8, !tbaa !17
  %33 = load i32, ptr %25, align 8, !tbaa !17
  %34 = load i32, ptr %26, align 8, !tbaa !17
  %35 = insertelement <4 x i32> poison, i32 %31, i64 0
  %36 = insertelement <4 x i32> %35, i32 %32, i64 1
  %37 = insertelement <4 x i32> %36, i32 %33, i64 2
  %38 = insertelement <4 x i32> %37, i32 %34, i64 3
  %39 = load i32, ptr %27, align 8, !tbaa !17
  %40 = load i32, ptr %28, align 8, !tbaa !17
  %41 = load i32, ptr %29, align 8, !tbaa !17
  %42 = load i32, ptr %30, align 8, !tbaa !17
  %43 = insertelement <4 x i32> poison, i32 %39, i64 0
  %44 = insertelement <4 x i32> %43, i32 %40, i64 1
  %45 = insertelement <4 x i32> %44, i32 %41, i64 2
  %46 = insertelement <4 x i32> %45, i32 %42, i64 3
  %47 = add <4 x i32> %38, %13
  %48 = add <4 x i32> %46, %14
  %49 = add nuw i64 %12, 8
  %50 = icmp eq i64 %49, %10
  br i1 %50, label %51, label %11, !llvm.loop !24

51:                                               ; preds = %11
  %52 = add <4 x i32> %48, %47
  %53 = tail call i32 @llvm.vector.reduce.add.v4i32(<4 x i32> %52)
  %54 = icmp eq i64 %10, %7
  br i1 %54, label %58, label %55

55:                                               ; preds = %6, %51
  %56 = phi i64 [ 0, %6 ], [ %10, %51 ]
  %57 = phi i32 [ 0, %6 ], [ %53, %51 ]
  br label %61

58:                                               ; preds = %61, %51, %1
  %59 = phi i32 [ 0, %1 ], [ %53, %51 ], [ %67, %61 ]
  call void @llvm.lifetime.start.p0(ptr nonnull %2) #8
  call void @llvm.memcpy.p0.p0.i64(ptr noundef nonnull align 8 dereferenceable(232) %2, ptr noundef nonnull align 8 dereferenceable(232) %0, i64 232, i1 false), !tbaa.struct !27
  %60 = call i32 @judge_show(ptr dead_on_return noundef nonnull %2, i32 noundef %59) #8
  call void @llvm.lifetime.end.p0(ptr nonnull %2) #8
  ret i32 %60

61:                                               ; preds = %55, %61
  %62 = phi i64 [ %68, %61 ], [ %56, %55 ]
  %63 = phi i32 [ %67, %61 ], [ %57, %55 ]
  %64 = getelementptr inbounds nuw %struct.cue, ptr %0, i64 %62
  %65 = getelementptr inbounds nuw i8, ptr %64, i64 8
  %66 = load i32, ptr %65, align 8, !tbaa !17
  %67 = add nsw i32 %66, %63
  %68 = add nuw nsw i64 %62, 1
  %69 = icmp eq i64 %68, %7
  br i1 %69, label %58, label %61, !llvm.loop !28
}

define dso_local void @p_add(ptr dead_on_unwind noalias writable writeonly sret(%struct.show) align 8 captures(none) initializes((0, 232)) %0, ptr dead_on_return noundef captures(none) %1, ptr dead_on_return noundef readonly captures(none) %2) local_unnamed_addr #0 {
  %4 = getelementptr inbounds nuw i8, ptr %1, i64 224
  %5 = load i32, ptr %4, align 8, !tbaa !22
  %6 = icmp slt i32 %5, 4
  br i1 %6, label %7, label %11

7:                                                ; preds = %3
  %8 = add nsw i32 %5, 1
  store i32 %8, ptr %4, align 8, !tbaa !22
  %9 = sext i32 %5 to i64
  %10 = getelementptr inbounds %struct.cue, ptr %1, i64 %9
  tail call void @llvm.memcpy.p0.p0.i64(ptr noundef nonnull align 8 dereferenceable(56) %10, ptr noundef nonnull align 8 dereferenceable(56) %2, i64 56, i1 false), !tbaa.struct !10
  br label %11

11:                                               ; preds = %7, %3
  tail call void @llvm.memcpy.p0.p0.i64(ptr noundef nonnull align 8 dereferenceable(232) %0, ptr noundef nonnull align 8 dereferenceable(232) %1, i64 232, i1 false), !tbaa.struct !27
  ret void
}

define dso_local float @p_pixels(ptr dead_on_return noundef readonly captures(none) %0, i32 noundef %1) local_unnamed_addr #3 {
  switch i32 %1, label %9 [
    i32 0, label %3
    i32 1, label %5
  ]

3:                                                ; preds = %2
  %4 = load float, ptr %0, align 4, !tbaa !29
  br label %12

5:                                                ; preds = %2
  %6 = getelementptr inbounds nuw i8, ptr %0, i64 16
  %7 = load float, ptr %6, align 4, !tbaa !29
  %8 = fmul float %7, 2.000000e+00
  br label %12

9:                                                ; preds = %2
  %10 = getelementptr inbounds nuw i8, ptr %0, i64 32
  %11 = load float, ptr %10, align 4, !tbaa !29
  br label %12

12:                                               ; preds = %9, %5, %3
  %13 = phi float [ %11, %9 ], [ %4, %3 ], [ %8, %5 ]
  ret float %13
}

define dso_local void @p_log(ptr dead_on_return noundef readonly captures(none) %0) local_unnamed_addr #4 {
  %2 = alloca %struct.cue, align 8
  %3 = alloca %struct.cue, align 8
  call void @llvm.memcpy.p0.p0.i64(ptr noundef nonnull align 8 dereferenceable(56) %2, ptr noundef nonnull align 8 dereferenceable(56) %0, i64 56, i1 false)
  call void @llvm.lifetime.start.p0(ptr nonnull %3) #8
  call void @llvm.memcpy.p0.p0.i64(ptr noundef nonnull align 8 dereferenceable(56) %3, ptr noundef nonnull align 8 dereferenceable(56) %0, i64 56, i1 false), !tbaa.struct !10
  call void @log_two(ptr dead_on_return noundef nonnull %3, ptr dead_on_return noundef nonnull %2, ptr noundef nonnull @.str) #8
  call void @llvm.lifetime.end.p0(ptr nonnull %3) #8
  ret void
}

define dso_local i32 @p_by_call(ptr noundef readonly captures(none) %0, ptr dead_on_return noundef readonly captures(none) %1) local_unnamed_addr #4 {
  %3 = alloca %struct.cue, align 8
  call void @llvm.lifetime.start.p0(ptr nonnull %3) #8
  call void @llvm.memcpy.p0.p0.i64(ptr noundef nonnull align 8 dereferenceable(56) %3, ptr noundef nonnull align 8 dereferenceable(56) %1, i64 56, i1 false), !tbaa.struct !10
  %4 = call i32 %0(ptr dead_on_return noundef nonnull %3, i32 noundef 7) #8
  call void @llvm.lifetime.end.p0(ptr nonnull %3) #8
  ret i32 %4
}

