; ModuleID = '../../texts/newest/by_pointer.c'
source_filename = "../../texts/newest/by_pointer.c"
target datalayout = "e-m:e-p270:32:32-p271:32:32-p272:64:64-i8:8:32-i16:16:32-i64:64-i128:128-n32:64-S128-Fn32"
target triple = "aarch64-unknown-linux-gnu"

%struct.cue = type { [3 x %struct.bar], double }
%struct.bar = type { i64, i32, i32 }
%struct.show = type { [4 x %struct.cue], i32 }

@.str = private unnamed_addr constant [5 x i8] c"same\00", align 1

; Function Attrs: mustprogress nofree norecurse nosync nounwind willreturn memory(argmem: readwrite) uwtable
define dso_local void @p_same(ptr dead_on_unwind noalias writable writeonly sret(%struct.cue) align 8 captures(none) initializes((0, 56)) %0, ptr dead_on_return noundef readonly captures(none) %1) local_unnamed_addr #0 {
  tail call void @llvm.memcpy.p0.p0.i64(ptr noundef nonnull align 8 dereferenceable(56) %0, ptr noundef nonnull align 8 dereferenceable(56) %1, i64 56, i1 false), !tbaa.struct !10
  ret void
}

; Function Attrs: mustprogress nocallback nofree nounwind willreturn memory(argmem: readwrite)
declare void @llvm.memcpy.p0.p0.i64(ptr noalias writeonly captures(none), ptr noalias readonly captures(none), i64, i1 immarg) #1

; Function Attrs: nofree norecurse nosync nounwind memory(argmem: readwrite) uwtable
define dso_local void @p_shift(ptr dead_on_unwind noalias writable writeonly sret(%struct.cue) align 8 captures(none) %0, ptr dead_on_return noundef captures(none) %1, i64 noundef %2) local_unnamed_addr #2 {
  br label %5

4:                                                ; preds = %5
  tail call void @llvm.memcpy.p0.p0.i64(ptr noundef nonnull align 8 dereferenceable(56) %0, ptr noundef nonnull align 8 dereferenceable(56) %1, i64 56, i1 false), !tbaa.struct !10
  ret void

5:                                                ; preds = %3, %5
  %6 = phi i64 [ 0, %3 ], [ %10, %5 ]
  %7 = getelementptr inbounds nuw %struct.bar, ptr %1, i64 %6
  %8 = load i64, ptr %7, align 8, !tbaa !14
  %9 = add nsw i64 %8, %2
  store i64 %9, ptr %7, align 8, !tbaa !14
  %10 = add nuw nsw i64 %6, 1
  %11 = icmp eq i64 %10, 3
  br i1 %11, label %4, label %5, !llvm.loop !17
}

; Function Attrs: mustprogress nocallback nofree nosync nounwind willreturn memory(argmem: readwrite)
declare void @llvm.lifetime.start.p0(ptr captures(none)) #3

; Function Attrs: mustprogress nocallback nofree nosync nounwind willreturn memory(argmem: readwrite)
declare void @llvm.lifetime.end.p0(ptr captures(none)) #3

; Function Attrs: mustprogress nofree norecurse nosync nounwind willreturn memory(argmem: read) uwtable
define dso_local i32 @p_level(ptr dead_on_return noundef readonly captures(none) %0, i32 noundef %1) local_unnamed_addr #4 {
  %3 = sext i32 %1 to i64
  %4 = getelementptr inbounds %struct.bar, ptr %0, i64 %3
  %5 = getelementptr inbounds nuw i8, ptr %4, i64 8
  %6 = load i32, ptr %5, align 8, !tbaa !20
  ret i32 %6
}

; Function Attrs: mustprogress nofree norecurse nosync nounwind willreturn memory(argmem: read) uwtable
define dso_local double @p_hold(ptr dead_on_return noundef readonly captures(none) %0) local_unnamed_addr #4 {
  %2 = getelementptr inbounds nuw i8, ptr %0, i64 48
  %3 = load double, ptr %2, align 8, !tbaa !21
  ret double %3
}

; Function Attrs: mustprogress nofree norecurse nosync nounwind willreturn memory(argmem: read) uwtable
define dso_local i64 @p_both(ptr dead_on_return noundef readonly captures(none) %0, ptr dead_on_return noundef readonly captures(none) %1) local_unnamed_addr #4 {
  %3 = load i64, ptr %0, align 8, !tbaa !14
  %4 = getelementptr inbounds nuw i8, ptr %1, i64 32
  %5 = load i64, ptr %4, align 8, !tbaa !14
  %6 = sub nsw i64 %3, %5
  ret i64 %6
}

; Function Attrs: nounwind uwtable
define dso_local void @p_fire(ptr dead_on_return noundef readonly captures(none) %0, i32 noundef %1) local_unnamed_addr #5 {
  %3 = alloca %struct.cue, align 8
  %4 = icmp sgt i32 %1, 0
  br i1 %4, label %5, label %9

5:                                                ; preds = %2, %5
  %6 = phi i32 [ %7, %5 ], [ %1, %2 ]
  %7 = add nsw i32 %6, -1
  call void @llvm.lifetime.start.p0(ptr nonnull %3) #7
  call void @llvm.memcpy.p0.p0.i64(ptr noundef nonnull align 8 dereferenceable(56) %3, ptr noundef nonnull align 8 dereferenceable(56) %0, i64 56, i1 false), !tbaa.struct !10
  call void @fire(ptr dead_on_return noundef nonnull %3) #7
  call void @llvm.lifetime.end.p0(ptr nonnull %3) #7
  %8 = icmp sgt i32 %6, 1
  br i1 %8, label %5, label %9, !llvm.loop !23

9:                                                ; preds = %5, %2
  ret void
}

declare void @fire(ptr dead_on_return noundef) local_unnamed_addr #6

; Function Attrs: nounwind uwtable
define dso_local void @p_fire_next(i32 noundef %0) local_unnamed_addr #5 {
  %2 = alloca %struct.cue, align 8
  call void @next(ptr dead_on_unwind nonnull writable sret(%struct.cue) align 8 %2, i32 noundef %0) #7
  call void @fire(ptr dead_on_return noundef nonnull %2) #7
  ret void
}

declare void @next(ptr dead_on_unwind writable sret(%struct.cue) align 8, i32 noundef) local_unnamed_addr #6

; Function Attrs: mustprogress nofree norecurse nosync nounwind willreturn memory(argmem: readwrite) uwtable
define dso_local void @p_pick(ptr dead_on_unwind noalias writable writeonly sret(%struct.cue) align 8 captures(none) initializes((0, 56)) %0, ptr dead_on_return noundef readonly captures(none) %1, ptr dead_on_return noundef readonly captures(none) %2, i32 noundef %3) local_unnamed_addr #0 {
  %5 = icmp eq i32 %3, 0
  %6 = select i1 %5, ptr %2, ptr %1
  tail call void @llvm.memcpy.p0.p0.i64(ptr noundef nonnull align 8 dereferenceable(56) %0, ptr noundef nonnull align 8 dereferenceable(56) %6, i64 56, i1 false)
  ret void
}

; Function Attrs: nounwind uwtable
define dso_local i32 @p_show(ptr dead_on_return noundef readonly captures(none) %0) local_unnamed_addr #5 {
  %2 = alloca %struct.show, align 8
  %3 = getelementptr inbounds nuw i8, ptr %0, i64 224
  %4 = load i32, ptr %3, align 8, !tbaa !24
  %5 = icmp sgt i32 %4, 0
  br i1 %5, label %6, label %8

6:                                                ; preds = %1
  %7 = zext nneg i32 %4 to i64
  br label %11

8:                                                ; preds = %11, %1
  %9 = phi i32 [ 0, %1 ], [ %17, %11 ]
  call void @llvm.lifetime.start.p0(ptr nonnull %2) #7
  call void @llvm.memcpy.p0.p0.i64(ptr noundef nonnull align 8 dereferenceable(232) %2, ptr noundef nonnull align 8 dereferenceable(232) %0, i64 232, i1 false), !tbaa.struct !26
  %10 = call i32 @judge_show(ptr dead_on_return noundef nonnull %2, i32 noundef %9) #7
  call void @llvm.lifetime.end.p0(ptr nonnull %2) #7
  ret i32 %10

11:                                               ; preds = %6, %11
  %12 = phi i64 [ 0, %6 ], [ %18, %11 ]
  %13 = phi i32 [ 0, %6 ], [ %17, %11 ]
  %14 = getelementptr inbounds nuw %struct.cue, ptr %0, i64 %12
  %15 = getelementptr inbounds nuw i8, ptr %14, i64 8
  %16 = load i32, ptr %15, align 8, !tbaa !20
  %17 = add nsw i32 %16, %13
  %18 = add nuw nsw i64 %12, 1
  %19 = icmp eq i64 %18, %7
  br i1 %19, label %8, label %11, !llvm.loop !27
}

declare i32 @judge_show(ptr dead_on_return noundef, i32 noundef) local_unnamed_addr #6

; Function Attrs: mustprogress nofree norecurse nosync nounwind willreturn memory(argmem: readwrite) uwtable
define dso_local void @p_add(ptr dead_on_unwind noalias writable writeonly sret(%struct.show) align 8 captures(none) initializes((0, 232)) %0, ptr dead_on_return noundef captures(none) %1, ptr dead_on_return noundef readonly captures(none) %2) local_unnamed_addr #0 {
  %4 = getelementptr inbounds nuw i8, ptr %1, i64 224
  %5 = load i32, ptr %4, align 8, !tbaa !24
  %6 = icmp slt i32 %5, 4
  br i1 %6, label %7, label %11

7:                                                ; preds = %3
  %8 = add nsw i32 %5, 1
  store i32 %8, ptr %4, align 8, !tbaa !24
  %9 = sext i32 %5 to i64
  %10 = getelementptr inbounds %struct.cue, ptr %1, i64 %9
  tail call void @llvm.memcpy.p0.p0.i64(ptr noundef nonnull align 8 dereferenceable(56) %10, ptr noundef nonnull align 8 dereferenceable(56) %2, i64 56, i1 false), !tbaa.struct !10
  br label %11

11:                                               ; preds = %7, %3
  tail call void @llvm.memcpy.p0.p0.i64(ptr noundef nonnull align 8 dereferenceable(232) %0, ptr noundef nonnull align 8 dereferenceable(232) %1, i64 232, i1 false), !tbaa.struct !26
  ret void
}

; Function Attrs: mustprogress nofree norecurse nosync nounwind willreturn memory(argmem: read) uwtable
define dso_local float @p_pixels(ptr dead_on_return noundef readonly captures(none) %0, i32 noundef %1) local_unnamed_addr #4 {
  switch i32 %1, label %9 [
    i32 0, label %3
    i32 1, label %5
  ]

3:                                                ; preds = %2
  %4 = load float, ptr %0, align 4, !tbaa !28
  br label %12

5:                                                ; preds = %2
  %6 = getelementptr inbounds nuw i8, ptr %0, i64 16
  %7 = load float, ptr %6, align 4, !tbaa !28
  %8 = fmul float %7, 2.000000e+00
  br label %12

9:                                                ; preds = %2
  %10 = getelementptr inbounds nuw i8, ptr %0, i64 32
  %11 = load float, ptr %10, align 4, !tbaa !28
  br label %12

12:                                               ; preds = %9, %5, %3
  %13 = phi float [ %11, %9 ], [ %4, %3 ], [ %8, %5 ]
  ret float %13
}

; Function Attrs: nounwind uwtable
define dso_local void @p_log(ptr dead_on_return noundef readonly captures(none) %0) local_unnamed_addr #5 {
  %2 = alloca %struct.cue, align 8
  %3 = alloca %struct.cue, align 8
  call void @llvm.memcpy.p0.p0.i64(ptr noundef nonnull align 8 dereferenceable(56) %2, ptr noundef nonnull align 8 dereferenceable(56) %0, i64 56, i1 false)
  call void @llvm.lifetime.start.p0(ptr nonnull %3) #7
  call void @llvm.memcpy.p0.p0.i64(ptr noundef nonnull align 8 dereferenceable(56) %3, ptr noundef nonnull align 8 dereferenceable(56) %0, i64 56, i1 false), !tbaa.struct !10
  call void @log_two(ptr dead_on_return noundef nonnull %3, ptr dead_on_return noundef nonnull %2, ptr noundef nonnull @.str) #7
  call void @llvm.lifetime.end.p0(ptr nonnull %3) #7
  ret void
}

declare void @log_two(ptr dead_on_return noundef, ptr dead_on_return noundef, ptr noundef) local_unnamed_addr #6

; Function Attrs: nounwind uwtable
define dso_local i32 @p_by_call(ptr noundef readonly captures(none) %0, ptr dead_on_return noundef readonly captures(none) %1) local_unnamed_addr #5 {
  %3 = alloca %struct.cue, align 8
  call void @llvm.lifetime.start.p0(ptr nonnull %3) #7
  call void @llvm.memcpy.p0.p0.i64(ptr noundef nonnull align 8 dereferenceable(56) %3, ptr noundef nonnull align 8 dereferenceable(56) %1, i64 56, i1 false), !tbaa.struct !10
  %4 = call i32 %0(ptr dead_on_return noundef nonnull %3, i32 noundef 7) #7
  call void @llvm.lifetime.end.p0(ptr nonnull %3) #7
  ret i32 %4
}

attributes #0 = { mustprogress nofree norecurse nosync nounwind willreturn memory(argmem: readwrite) uwtable "frame-pointer"="non-leaf-no-reserve" "no-trapping-math"="true" "stack-protector-buffer-size"="8" "target-cpu"="generic" "target-features"="+fp-armv8,+neon,+v8a,-fmv" }
attributes #1 = { mustprogress nocallback nofree nounwind willreturn memory(argmem: readwrite) }
attributes #2 = { nofree norecurse nosync nounwind memory(argmem: readwrite) uwtable "frame-pointer"="non-leaf-no-reserve" "no-trapping-math"="true" "stack-protector-buffer-size"="8" "target-cpu"="generic" "target-features"="+fp-armv8,+neon,+v8a,-fmv" }
attributes #3 = { mustprogress nocallback nofree nosync nounwind willreturn memory(argmem: readwrite) }
attributes #4 = { mustprogress nofree norecurse nosync nounwind willreturn memory(argmem: read) uwtable "frame-pointer"="non-leaf-no-reserve" "no-trapping-math"="true" "stack-protector-buffer-size"="8" "target-cpu"="generic" "target-features"="+fp-armv8,+neon,+v8a,-fmv" }
attributes #5 = { nounwind uwtable "frame-pointer"="non-leaf-no-reserve" "no-trapping-math"="true" "stack-protector-buffer-size"="8" "target-cpu"="generic" "target-features"="+fp-armv8,+neon,+v8a,-fmv" }
attributes #6 = { "frame-pointer"="non-leaf-no-reserve" "no-trapping-math"="true" "stack-protector-buffer-size"="8" "target-cpu"="generic" "target-features"="+fp-armv8,+neon,+v8a,-fmv" }
attributes #7 = { nounwind }

!llvm.module.flags = !{!0, !1, !2, !3, !4}
!llvm.ident = !{!5}
!llvm.errno.tbaa = !{!6}

!0 = !{i32 1, !"wchar_size", i32 4}
!1 = !{i32 8, !"PIC Level", i32 2}
!2 = !{i32 7, !"PIE Level", i32 2}
!3 = !{i32 7, !"uwtable", i32 2}
!4 = !{i32 7, !"frame-pointer", i32 4}
!5 = !{!"Debian clang version 22.1.8 (1~deb12u1)"}
!6 = !{!7, !7, i64 0}
!7 = !{!"int", !8, i64 0}
!8 = !{!"omnipotent char", !9, i64 0}
!9 = !{!"Simple C/C++ TBAA"}
!10 = !{i64 0, i64 48, !11, i64 48, i64 8, !12}
!11 = !{!8, !8, i64 0}
!12 = !{!13, !13, i64 0}
!13 = !{!"double", !8, i64 0}
!14 = !{!15, !16, i64 0}
!15 = !{!"bar", !16, i64 0, !7, i64 8, !7, i64 12}
!16 = !{!"long", !8, i64 0}
!17 = distinct !{!17, !18, !19}
!18 = !{!"llvm.loop.mustprogress"}
!19 = !{!"llvm.loop.unroll.disable"}
!20 = !{!15, !7, i64 8}
!21 = !{!22, !13, i64 48}
!22 = !{!"cue", !8, i64 0, !13, i64 48}
!23 = distinct !{!23, !18, !19}
!24 = !{!25, !7, i64 224}
!25 = !{!"show", !8, i64 0, !7, i64 224}
!26 = !{i64 0, i64 224, !11, i64 224, i64 4, !6}
!27 = distinct !{!27, !18, !19}
!28 = !{!29, !29, i64 0}
!29 = !{!"float", !8, i64 0}
