define dso_local void @p_same(ptr dead_on_unwind noalias writable writeonly sret(%struct.cue) align 8 captures(none) initializes((0, 56)) %0, ptr dead_on_return noundef readonly captures(none) %1) local_unnamed_addr #0 {
  tail call void @llvm.memcpy.p0.p0.i64(ptr noundef nonnull align 8 dereferenceable(56) %0, ptr noundef nonnull align 8 dereferenceable(56) %1, i64 56, i1 false), !tbaa.struct !10
  ret void
}

define dso_local void @p_shift(ptr dead_on_unwind noalias writable writeonly sret(%struct.cue) align 8 captures(none) %0, ptr dead_on_return noundef captures(none) %1, i64 noundef %2) local_unnamed_addr #2 {
  br label %5

4:                                                ; preds = %5
  tail call void @llvm.memcpy.p0.p0.i64(ptr noundef nonnull align 8 dereferenceable(56) %0, ptr noundef nonnull align 8 dereferenceable(56) %1, i64 56, i1 false), !tbaa.struct !10
  ret void

5:                                                ; preds = %3, %5
  %6 = phi i64 [ 0, %3 ], [ %10, %5 ]
  %7 = getelementptr inbounds nuw %struct.bar, ptr %1, i64 %6
  %8 = load i64, ptr %7, align 8, !tbaa !14
  %9 = add nsw i64 %8, %2
  store i64 %9, ptr %7, align 8, !tbaa !14
  %10 = add nuw nsw i64 %6, 1
  %11 = icmp eq i64 %10, 3
  br i1 %11, label %4, label %5, !llvm.loop !17
}

define dso_local i32 @p_level(ptr dead_on_return noundef readonly captures(none) %0, i32 noundef %1) local_unnamed_addr #4 {
  %3 = sext i32 %1 to i64
  %4 = getelementptr inbounds %struct.bar, ptr %0, i64 %3
  %5 = getelementptr inbounds nuw i8, ptr %4, i64 8
  %6 = load i32, ptr %5, align 8, !tbaa !20
  ret i32 %6
}

define dso_local double @p_hold(ptr dead_on_return noundef readonly captures(none) %0) local_unnamed_addr #4 {
  %2 = getelementptr inbounds nuw i8, ptr %0, i64 48
  %3 = load double, ptr %2, align 8, !tbaa !21
  ret double %3
}

define dso_local i64 @p_both(ptr dead_on_return noundef readonly captures(none) %0, ptr dead_on_return noundef readonly captures(none) %1) local_unnamed_addr #4 {
  %3 = load i64, ptr %0, align 8, !tbaa !14
  %4 = getelementptr inbounds nuw i8, ptr %1, i64 32
  %5 = load i64, ptr %4, align 8, !tbaa !14
  %6 = sub nsw i64 %3, %5
  ret i64 %6
}

define dso_local void @p_fire(ptr dead_on_return noundef readonly captures(none) %0, i32 noundef %1) local_unnamed_addr #5 {
  %3 = alloca %struct.cue, align 8
  %4 = icmp sgt i32 %1, 0
  br i1 %4, label %5, label %9

5:                                                ; preds = %2, %5
  %6 = phi i32 [ %7, %5 ], [ %1, %2 ]
  %7 = add nsw i32 %6, -1
  call void @llvm.lifetime.start.p0(ptr nonnull %3) #7
  call void @llvm.memcpy.p0.p0.i64(ptr noundef nonnull align 8 dereferenceable(56) %3, ptr noundef nonnull align 8 dereferenceable(56) %0, i64 56, i1 false), !tbaa.struct !10
  call void @fire(ptr dead_on_return noundef nonnull %3) #7
  call void @llvm.lifetime.end.p0(ptr nonnull %3) #7
  %8 = icmp sgt i32 %6, 1
  br i1 %8, label %5, label %9, !llvm.loop !23

9:                                                ; preds = %5, %2
  ret void
}

define dso_local void @p_fire_next(i32 noundef %0) local_unnamed_addr #5 {
  %2 = alloca %struct.cue, align 8
  call void @next(ptr dead_on_unwind nonnull writable sret(%struct.cue) align 8 %2, i32 noundef %0) #7
  call void @fire(ptr dead_on_return noundef nonnull %2) #7
  ret void
}

define dso_local void @p_pick(ptr dead_on_unwind noalias writable writeonly sret(%struct.cue) align 8 captures(none) initializes((0, 56)) %0, ptr dead_on_return noundef readonly captures(none) %1, ptr dead_on_return noundef readonly captures(none) %2, i32 noundef %3) local_unnamed_addr #0 {
  %5 = icmp eq i32 %3, 0
  %6 = select i1 %5, ptr %2, ptr %1
  tail call void @llvm.memcpy.p0.p0.i64(ptr noundef nonnull align 8 dereferenceable(56) %0, ptr noundef nonnull align 8 dereferenceable(56) %6, i64 56, i1 false)
  ret void
}

define dso_local i32 @p_show(ptr dead_on_return noundef readonly captures(none) %0) local_unnamed_addr #5 {
  %2 = alloca %struct.show, align 8
  %3 = getelementptr inbounds nuw i8, ptr %0, i64 224
  %4 = load i32, ptr %3, align 8, !tbaa !24
  %5 = icmp sgt i32 %4, 0
  br i1 %5, label %6, label %8

6:                                                ; preds = %1
  %7 = zext nneg i32 %4 to i64
  br label %11

8:                                                ; preds = %11, %1
  %9 = phi i32 [ 0, %1 ], [ %17, %11 ]
  call void @llvm.lifetime.start.p0(ptr nonnull %2) #7
  call void @llvm.memcpy.p0.p0.i64(ptr noundef nonnull align 8 dereferenceable(232) %2, ptr noundef nonnull align 8 dereferenceable(232) %0, i64 232, i1 false), !tbaa.struct !26
  %10 = call i32 @judge_show(ptr dead_on_return noundef nonnull %2, i32 noundef %9) #7
  call void @llvm.lifetime.end.p0(ptr nonnull %2) #7
  ret i32 %10

11:                                               ; preds = %6, %11
  %12 = phi i64 [ 0, %6 ], [ %18, %11 ]
  %13 = phi i32 [ 0, %6 ], [ %17, %11 ]
  %14 = getelementptr inbounds nuw %struct.cue, ptr %0, i64 %12
  %15 = getelementptr inbounds nuw i8, ptr %14, i64 8
  %16 = load i32, ptr %15, align 8, !tbaa !20
  %17 = add nsw i32 %16, %13
  %18 = add nuw nsw i64 %12, 1
  %19 = icmp eq i64 %18, %7
  br i1 %19, label %8, label %11, !llvm.loop !27
}

define dso_local void @p_add(ptr dead_on_unwind noalias writable writeonly sret(%struct.show) align 8 captures(none) initializes((0, 232)) %0, ptr dead_on_return noundef captures(none) %1, ptr dead_on_return noundef readonly captures(none) %2) local_unnamed_addr #0 {
  %4 = getelementptr inbounds nuw i8, ptr %1, i64 224
  %5 = load i32, ptr %4, align 8, !tbaa !24
  %6 = icmp slt i32 %5, 4
  br i1 %6, label %7, label %11

7:                                                ; preds = %3
  %8 = add nsw i32 %5, 1
  store i32 %8, ptr %4, align 8, !tbaa !24
  %9 = sext i32 %5 to i64
  %10 = getelementptr inbounds %struct.cue, ptr %1, i64 %9
  tail call void @llvm.memcpy.p0.p0.i64(ptr noundef nonnull align 8 dereferenceable(56) %10, ptr noundef nonnull align 8 dereferenceable(56) %2, i64 56, i1 false), !tbaa.struct !10
  br label %11

11:                                               ; preds = %7, %3
  tail call void @llvm.memcpy.p0.p0.i64(ptr noundef nonnull align 8 dereferenceable(232) %0, ptr noundef nonnull align 8 dereferenceable(232) %1, i64 232, i1 false), !tbaa.struct !26
  ret void
}

define dso_local float @p_pixels(ptr dead_on_return noundef readonly captures(none) %0, i32 noundef %1) local_unnamed_addr #4 {
  switch i32 %1, label %9 [
    i32 0, label %3
    i32 1, label %5
  ]

3:                                                ; preds = %2
  %4 = load float, ptr %0, align 4, !tbaa !28
  br label %12

5:                                                ; preds = %2
  %6 = getelementptr inbounds nuw i8, ptr %0, i64 16
  %7 = load float, ptr %6, align 4, !tbaa !28
  %8 = fmul float %7, 2.000000e+00
  br label %12

9:                                                ; preds = %2
  %10 = getelementptr inbounds nuw i8, ptr %0, i64 32
  %11 = load float, ptr %10, align 4, !tbaa !28
  br label %12

12:                                               ; preds = %9, %5, %3
  %13 = phi float [ %11, %9 ], [ %4, %3 ], [ %8, %5 ]
  ret float %13
}

define dso_local void @p_log(ptr dead_on_return noundef readonly captures(none) %0) local_unnamed_addr #5 {
  %2 = alloca %struct.cue, align 8
  %3 = alloca %struct.cue, align 8
  call void @llvm.memcpy.p0.p0.i64(ptr noundef nonnull align 8 dereferenceable(56) %2, ptr noundef nonnull align 8 dereferenceable(56) %0, i64 56, i1 false)
  call void @llvm.lifetime.start.p0(ptr nonnull %3) #7
  call void @llvm.memcpy.p0.p0.i64(ptr noundef nonnull align 8 dereferenceable(56) %3, ptr noundef nonnull align 8 dereferenceable(56) %0, i64 56, i1 false), !tbaa.struct !10
  call void @log_two(ptr dead_on_return noundef nonnull %3, ptr dead_on_return noundef nonnull %2, ptr noundef nonnull @.str) #7
  call void @llvm.lifetime.end.p0(ptr nonnull %3) #7
  ret void
}

define dso_local i32 @p_by_call(ptr noundef readonly captures(none) %0, ptr dead_on_return noundef readonly captures(none) %1) local_unnamed_addr #5 {
  %3 = alloca %struct.cue, align 8
  call void @llvm.lifetime.start.p0(ptr nonnull %3) #7
  call void @llvm.memcpy.p0.p0.i64(ptr noundef nonnull align 8 dereferenceable(56) %3, ptr noundef nonnull align 8 dereferenceable(56) %1, i64 56, i1 false), !tbaa.struct !10
  %4 = call i32 %0(ptr dead_on_return noundef nonnull %3, i32 noundef 7) #7
  call void @llvm.lifetime.end.p0(ptr nonnull %3) #7
  ret i32 %4
}

