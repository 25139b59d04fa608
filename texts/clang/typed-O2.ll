define dso_local i32 @c_print(i32 noundef %0, i8* noundef %1) local_unnamed_addr #0 {
  %3 = sitofp i32 %0 to double
  %4 = fmul double %3, 5.000000e-01
  %5 = tail call i32 (i8*, ...) @printf(i8* noundef nonnull dereferenceable(1) getelementptr inbounds ([10 x i8], [10 x i8]* @.str, i64 0, i64 0), i32 noundef %0, i8* noundef %1, double noundef %4)
  ret i32 %5
}

define dso_local i32 @c_sum(i32 noundef %0, ...) local_unnamed_addr #2 {
  %2 = alloca [1 x %struct.__va_list_tag], align 16
  %3 = bitcast [1 x %struct.__va_list_tag]* %2 to i8*
  call void @llvm.lifetime.start.p0i8(i64 24, i8* nonnull %3) #26
  call void @llvm.va_start(i8* nonnull %3)
  %4 = icmp eq i32 %0, 0
  br i1 %4, label %68, label %5

5:                                                ; preds = %1
  %6 = getelementptr inbounds [1 x %struct.__va_list_tag], [1 x %struct.__va_list_tag]* %2, i64 0, i64 0, i32 0
  %7 = getelementptr inbounds [1 x %struct.__va_list_tag], [1 x %struct.__va_list_tag]* %2, i64 0, i64 0, i32 2
  %8 = getelementptr inbounds [1 x %struct.__va_list_tag], [1 x %struct.__va_list_tag]* %2, i64 0, i64 0, i32 3
  %9 = load i8*, i8** %8, align 16
  %10 = load i32, i32* %6, align 16
  %11 = and i32 %0, 1
  %12 = icmp eq i32 %0, 1
  br i1 %12, label %49, label %13

13:                                               ; preds = %5
  %14 = and i32 %0, -2
  br label %15

15:                                               ; preds = %41, %13
  %16 = phi i32 [ %10, %13 ], [ %42, %41 ]
  %17 = phi i32 [ 0, %13 ], [ %46, %41 ]
  %18 = phi i32 [ 0, %13 ], [ %47, %41 ]
  %19 = icmp ult i32 %16, 41
  br i1 %19, label %20, label %24

20:                                               ; preds = %15
  %21 = zext i32 %16 to i64
  %22 = getelementptr i8, i8* %9, i64 %21
  %23 = add nuw nsw i32 %16, 8
  store i32 %23, i32* %6, align 16
  br label %27

24:                                               ; preds = %15
  %25 = load i8*, i8** %7, align 8
  %26 = getelementptr i8, i8* %25, i64 8
  store i8* %26, i8** %7, align 8
  br label %27

27:                                               ; preds = %24, %20
  %28 = phi i32 [ %23, %20 ], [ %16, %24 ]
  %29 = phi i8* [ %22, %20 ], [ %25, %24 ]
  %30 = bitcast i8* %29 to i32*
  %31 = load i32, i32* %30, align 4
  %32 = add nsw i32 %31, %17
  %33 = icmp ult i32 %28, 41
  br i1 %33, label %37, label %34

34:                                               ; preds = %27
  %35 = load i8*, i8** %7, align 8
  %36 = getelementptr i8, i8* %35, i64 8
  store i8* %36, i8** %7, align 8
  br label %41

37:                                               ; preds = %27
  %38 = zext i32 %28 to i64
  %39 = getelementptr i8, i8* %9, i64 %38
  %40 = add nuw nsw i32 %28, 8
  store i32 %40, i32* %6, align 16
  br label %41

41:                                               ; preds = %37, %34
  %42 = phi i32 [ %40, %37 ], [ %28, %34 ]
  %43 = phi i8* [ %39, %37 ], [ %35, %34 ]
  %44 = bitcast i8* %43 to i32*
  %45 = load i32, i32* %44, align 4
  %46 = add nsw i32 %45, %32
  %47 = add i32 %18, 2
  %48 = icmp eq i32 %47, %14
  br i1 %48, label %49, label %15, !llvm.loop !5

49:                                               ; preds = %41, %5
  %50 = phi i32 [ undef, %5 ], [ %46, %41 ]
  %51 = phi i32 [ %10, %5 ], [ %42, %41 ]
  %52 = phi i32 [ 0, %5 ], [ %46, %41 ]
  %53 = icmp eq i32 %11, 0
  br i1 %53, label %68, label %54

54:                                               ; preds = %49
  %55 = icmp ult i32 %51, 41
  br i1 %55, label %59, label %56

56:                                               ; preds = %54
  %57 = load i8*, i8** %7, align 8
  %58 = getelementptr i8, i8* %57, i64 8
  store i8* %58, i8** %7, align 8
  br label %63

59:                                               ; preds = %54
  %60 = zext i32 %51 to i64
  %61 = getelementptr i8, i8* %9, i64 %60
  %62 = add nuw nsw i32 %51, 8
  store i32 %62, i32* %6, align 16
  br label %63

63:                                               ; preds = %59, %56
  %64 = phi i8* [ %61, %59 ], [ %57, %56 ]
  %65 = bitcast i8* %64 to i32*
  %66 = load i32, i32* %65, align 4
  %67 = add nsw i32 %66, %52
  br label %68

68:                                               ; preds = %63, %49, %1
  %69 = phi i32 [ 0, %1 ], [ %50, %49 ], [ %67, %63 ]
  call void @llvm.va_end(i8* nonnull %3)
  call void @llvm.lifetime.end.p0i8(i64 24, i8* nonnull %3) #26
  ret i32 %69
}

define dso_local i32 @c_indirect(i32 (i32, i8*)* noundef readonly %0, i32 noundef %1, i8* noundef %2) local_unnamed_addr #5 {
  %4 = icmp eq i32 (i32, i8*)* %0, null
  br i1 %4, label %7, label %5

5:                                                ; preds = %3
  %6 = tail call i32 %0(i32 noundef %1, i8* noundef %2) #26
  br label %7

7:                                                ; preds = %3, %5
  %8 = phi i32 [ %6, %5 ], [ -1, %3 ]
  ret i32 %8
}

define dso_local void @c_table(i32 noundef %0) local_unnamed_addr #5 {
  %2 = and i32 %0, 3
  %3 = zext i32 %2 to i64
  %4 = getelementptr inbounds [4 x void ()*], [4 x void ()*]* @plains, i64 0, i64 %3
  %5 = load void ()*, void ()** %4, align 8, !tbaa !7
  tail call void %5() #26
  ret void
}

define dso_local i32 (i32, i8*)* @c_pick(i32 noundef %0, i32 (i32, i8*)* noundef readnone %1, i32 (i32, i8*)* noundef readnone %2) local_unnamed_addr #6 {
  %4 = icmp eq i32 %0, 0
  %5 = select i1 %4, i32 (i32, i8*)* %2, i32 (i32, i8*)* %1
  ret i32 (i32, i8*)* %5
}

define dso_local i32 @c_fact(i32 noundef %0) local_unnamed_addr #7 {
  %2 = icmp slt i32 %0, 2
  br i1 %2, label %77, label %3

3:                                                ; preds = %1
  %4 = add i32 %0, 1
  %5 = call i32 @llvm.umin.i32(i32 %0, i32 2)
  %6 = sub i32 %4, %5
  %7 = icmp ult i32 %6, 8
  br i1 %7, label %68, label %8

8:                                                ; preds = %3
  %9 = and i32 %6, -8
  %10 = sub i32 %0, %9
  %11 = insertelement <4 x i32> poison, i32 %0, i64 0
  %12 = shufflevector <4 x i32> %11, <4 x i32> poison, <4 x i32> zeroinitializer
  %13 = add <4 x i32> %12, <i32 0, i32 -1, i32 -2, i32 -3>
  %14 = add i32 %9, -8
  %15 = lshr exact i32 %14, 3
  %16 = add nuw nsw i32 %15, 1
  %17 = and i32 %16, 3
  %18 = icmp ult i32 %14, 24
  br i1 %18, label %44, label %19

19:                                               ; preds = %8
  %20 = and i32 %16, 1073741820
  br label %21

21:                                               ; preds = %21, %19
  %22 = phi <4 x i32> [ %13, %19 ], [ %41, %21 ]
  %23 = phi <4 x i32> [ <i32 1, i32 1, i32 1, i32 1>, %19 ], [ %39, %21 ]
  %24 = phi <4 x i32> [ <i32 1, i32 1, i32 1, i32 1>, %19 ], [ %40, %21 ]
  %25 = phi i32 [ 0, %19 ], [ %42, %21 ]
  %26 = add <4 x i32> %22, <i32 -4, i32 -4, i32 -4, i32 -4>
  %27 = mul <4 x i32> %22, %23
  %28 = mul <4 x i32> %26, %24
  %29 = add <4 x i32> %22, <i32 -8, i32 -8, i32 -8, i32 -8>
  %30 = add <4 x i32> %22, <i32 -12, i32 -12, i32 -12, i32 -12>
  %31 = mul <4 x i32> %29, %27
  %32 = mul <4 x i32> %30, %28
  %33 = add <4 x i32> %22, <i32 -16, i32 -16, i32 -16, i32 -16>
  %34 = add <4 x i32> %22, <i32 -20, i32 -20, i32 -20, i32 -20>
  %35 = mul <4 x i32> %33, %31
  %36 = mul <4 x i32> %34, %32
  %37 = add <4 x i32> %22, <i32 -24, i32 -24, i32 -24, i32 -24>
  %38 = add <4 x i32> %22, <i32 -28, i32 -28, i32 -28, i32 -28>
  %39 = mul <4 x i32> %37, %35
  %40 = mul <4 x i32> %38, %36
  %41 = add <4 x i32> %22, <i32 -32, i32 -32, i32 -32, i32 -32>
  %42 = add i32 %25, 4
  %43 = icmp eq i32 %42, %20
  br i1 %43, label %44, label %21, !llvm.loop !11

44:                                               ; preds = %21, %8
  %45 = phi <4 x i32> [ undef, %8 ], [ %39, %21 ]
  %46 = phi <4 x i32> [ undef, %8 ], [ %40, %21 ]
  %47 = phi <4 x i32> [ %13, %8 ], [ %41, %21 ]
  %48 = phi <4 x i32> [ <i32 1, i32 1, i32 1, i32 1>, %8 ], [ %39, %21 ]
  %49 = phi <4 x i32> [ <i32 1, i32 1, i32 1, i32 1>, %8 ], [ %40, %21 ]
  %50 = icmp eq i32 %17, 0
  br i1 %50, label %62, label %51

51:                                               ; preds = %44, %51
  %52 = phi <4 x i32> [ %59, %51 ], [ %47, %44 ]
  %53 = phi <4 x i32> [ %57, %51 ], [ %48, %44 ]
  %54 = phi <4 x i32> [ %58, %51 ], [ %49, %44 ]
  %55 = phi i32 [ %60, %51 ], [ 0, %44 ]
  %56 = add <4 x i32> %52, <i32 -4, i32 -4, i32 -4, i32 -4>
  %57 = mul <4 x i32> %52, %53
  %58 = mul <4 x i32> %56, %54
  %59 = add <4 x i32> %52, <i32 -8, i32 -8, i32 -8, i32 -8>
  %60 = add i32 %55, 1
  %61 = icmp eq i32 %60, %17
  br i1 %61, label %62, label %51, !llvm.loop !13

62:                                               ; preds = %51, %44
  %63 = phi <4 x i32> [ %45, %44 ], [ %57, %51 ]
  %64 = phi <4 x i32> [ %46, %44 ], [ %58, %51 ]
  %65 = mul <4 x i32> %64, %63
  %66 = call i32 @llvm.vector.reduce.mul.v4i32(<4 x i32> %65)
  %67 = icmp eq i32 %6, %9
  br i1 %67, label %77, label %68

68:                                               ; preds = %3, %62
  %69 = phi i32 [ %0, %3 ], [ %10, %62 ]
  %70 = phi i32 [ 1, %3 ], [ %66, %62 ]
  br label %71

71:                                               ; preds = %68, %71
  %72 = phi i32 [ %74, %71 ], [ %69, %68 ]
  %73 = phi i32 [ %75, %71 ], [ %70, %68 ]
  %74 = add nsw i32 %72, -1
  %75 = mul nsw i32 %72, %73
  %76 = icmp ult i32 %72, 3
  br i1 %76, label %77, label %71, !llvm.loop !15

77:                                               ; preds = %71, %62, %1
  %78 = phi i32 [ 1, %1 ], [ %66, %62 ], [ %75, %71 ]
  ret i32 %78
}

define dso_local i32 @c_tail(i32 noundef %0, i32 noundef %1) local_unnamed_addr #7 {
  %3 = icmp eq i32 %0, 0
  br i1 %3, label %16, label %4

4:                                                ; preds = %2
  %5 = add i32 %0, -1
  %6 = mul i32 %5, %5
  %7 = zext i32 %5 to i33
  %8 = add i32 %0, -2
  %9 = zext i32 %8 to i33
  %10 = mul i33 %7, %9
  %11 = lshr i33 %10, 1
  %12 = trunc i33 %11 to i32
  %13 = add i32 %1, %0
  %14 = add i32 %13, %6
  %15 = sub i32 %14, %12
  br label %16

16:                                               ; preds = %4, %2
  %17 = phi i32 [ %1, %2 ], [ %15, %4 ]
  ret i32 %17
}

define dso_local void @c_die(i32 noundef %0) local_unnamed_addr #8 {
  %2 = tail call i32 @puts(i8* nonnull dereferenceable(1) getelementptr inbounds ([5 x i8], [5 x i8]* @str, i64 0, i64 0))
  tail call void @exit(i32 noundef %0) #27
  unreachable
}

define dso_local i32 @c_unreachable(i32 noundef %0) local_unnamed_addr #10 {
  %2 = icmp eq i32 %0, 3
  tail call void @llvm.assume(i1 %2)
  ret i32 1
}

define dso_local i32 @c_cold(i32 noundef %0) local_unnamed_addr #11 {
  %2 = add nsw i32 %0, 1
  ret i32 %2
}

define dso_local i32 @c_uses(i32 noundef %0) local_unnamed_addr #6 {
  %2 = add nsw i32 %0, 2
  %3 = tail call i32 @c_cold(i32 noundef %0) #28
  %4 = add nsw i32 %2, %3
  ret i32 %4
}

define dso_local i32 @c_fast(i32 noundef %0) local_unnamed_addr #6 {
  %2 = shl nsw i32 %0, 1
  %3 = tail call fastcc i32 @c_static(i32 noundef %0, i32 noundef %2)
  %4 = tail call fastcc i32 @c_static(i32 noundef 3, i32 noundef %0)
  %5 = add nsw i32 %4, %3
  ret i32 %5
}

define internal fastcc i32 @c_static(i32 noundef %0, i32 noundef %1) unnamed_addr #12 {
  %3 = add nsw i32 %1, 1
  %4 = sdiv i32 %0, %3
  ret i32 %4
}

define weak dso_local i32 @c_weak() local_unnamed_addr #5 {
  ret i32 5
}

define hidden i32 @c_hidden() local_unnamed_addr #6 {
  ret i32 6
}

define dso_local i32 @c_expect(i32 noundef %0) local_unnamed_addr #13 {
  %2 = icmp eq i32 %0, 0
  br i1 %2, label %5, label %3, !prof !17

3:                                                ; preds = %1
  %4 = tail call i32 @llvm.abs.i32(i32 %0, i1 true)
  br label %5

5:                                                ; preds = %1, %3
  %6 = phi i32 [ %4, %3 ], [ 0, %1 ]
  ret i32 %6
}

define dso_local i32 @c_overflow(i32 noundef %0, i32 noundef %1) local_unnamed_addr #13 {
  %3 = tail call { i32, i1 } @llvm.sadd.with.overflow.i32(i32 %0, i32 %1)
  %4 = extractvalue { i32, i1 } %3, 1
  %5 = extractvalue { i32, i1 } %3, 0
  %6 = select i1 %4, i32 -1, i32 %5
  ret i32 %6
}

define dso_local i32 @a_load(i32* nocapture noundef readonly %0) local_unnamed_addr #15 {
  %2 = load atomic i32, i32* %0 seq_cst, align 4
  ret i32 %2
}

define dso_local void @a_store(i32* nocapture noundef writeonly %0, i32 noundef %1) local_unnamed_addr #15 {
  store atomic i32 %1, i32* %0 release, align 4
  ret void
}

define dso_local i32 @a_add(i32* nocapture noundef %0) local_unnamed_addr #15 {
  %2 = atomicrmw add i32* %0, i32 3 seq_cst, align 4
  ret i32 %2
}

define dso_local i32 @a_exchange(i64* nocapture noundef %0, i64 noundef %1, i64 noundef %2) local_unnamed_addr #15 {
  %4 = cmpxchg i64* %0, i64 %1, i64 %2 seq_cst seq_cst, align 8
  %5 = extractvalue { i64, i1 } %4, 1
  %6 = zext i1 %5 to i32
  ret i32 %6
}

define dso_local void @a_fence() local_unnamed_addr #15 {
  fence seq_cst
  ret void
}

define dso_local void @a_signal() local_unnamed_addr #16 {
  fence syncscope("singlethread") acquire
  ret void
}

define dso_local i32 @a_spin(i32* nocapture noundef %0) local_unnamed_addr #17 {
  br label %2

2:                                                ; preds = %2, %1
  %3 = phi i32 [ 0, %1 ], [ %6, %2 ]
  %4 = cmpxchg weak i32* %0, i32 0, i32 1 acquire monotonic, align 4
  %5 = extractvalue { i32, i1 } %4, 1
  %6 = add nuw nsw i32 %3, 1
  br i1 %5, label %7, label %2, !llvm.loop !18

7:                                                ; preds = %2
  ret i32 %3
}

define dso_local i32 @c_compare(i8* nocapture noundef readonly %0, i8* nocapture noundef readonly %1) #18 {
  %3 = bitcast i8* %0 to i32*
  %4 = load i32, i32* %3, align 4, !tbaa !19
  %5 = bitcast i8* %1 to i32*
  %6 = load i32, i32* %5, align 4, !tbaa !19
  %7 = sub nsw i32 %4, %6
  ret i32 %7
}

define dso_local void @c_sort(i32* noundef %0, i64 noundef %1) local_unnamed_addr #0 {
  %3 = bitcast i32* %0 to i8*
  tail call void @qsort(i8* noundef %3, i64 noundef %1, i64 noundef 4, i32 (i8*, i8*)* noundef nonnull @c_compare) #26
  ret void
}

define dso_local noalias i8* @c_alloc(i64 noundef %0) local_unnamed_addr #20 {
  %2 = tail call noalias i8* @malloc(i64 noundef %0) #26
  %3 = icmp eq i8* %2, null
  br i1 %3, label %4, label %6

4:                                                ; preds = %1
  %5 = tail call noalias i8* @calloc(i64 noundef 1, i64 noundef %0) #26
  br label %6

6:                                                ; preds = %1, %4
  %7 = phi i8* [ %5, %4 ], [ %2, %1 ]
  ret i8* %7
}

define dso_local i32 @c_label(i32 noundef %0) #6 {
  %2 = and i32 %0, 1
  %3 = zext i32 %2 to i64
  %4 = getelementptr inbounds [2 x i8*], [2 x i8*]* @c_label.to, i64 0, i64 %3
  %5 = load i8*, i8** %4, align 8, !tbaa !7
  indirectbr i8* %5, [label %7, label %6]

6:                                                ; preds = %1
  br label %7

7:                                                ; preds = %1, %6
  %8 = phi i32 [ 2, %6 ], [ 1, %1 ]
  ret i32 %8
}

define dso_local void @cue_single() local_unnamed_addr #0 {
  tail call void @fire(i32 noundef 7) #7
  ret void
}

define dso_local void @cue_pair(i32 noundef %0, i32 noundef %1) local_unnamed_addr #0 {
  tail call void @fire(i32 noundef %0) #7
  tail call void @wait_ms(i32 noundef 250) #7
  tail call void @fire(i32 noundef %1) #7
  ret void
}

define dso_local void @cue_sweep(i32 noundef %0, i32 noundef %1) local_unnamed_addr #0 {
  %3 = icmp sgt i32 %0, %1
  br i1 %3, label %4, label %5

4:                                                ; preds = %5, %2
  ret void

5:                                                ; preds = %2, %5
  %6 = phi i32 [ %7, %5 ], [ %0, %2 ]
  tail call void @fire(i32 noundef %6) #7
  tail call void @wait_ms(i32 noundef 40) #7
  %7 = add i32 %6, 1
  %8 = icmp eq i32 %6, %1
  br i1 %8, label %4, label %5, !llvm.loop !5
}

define dso_local void @cue_back(i32 noundef %0, i32 noundef %1) local_unnamed_addr #0 {
  br label %3

3:                                                ; preds = %3, %2
  %4 = phi i32 [ %0, %2 ], [ %5, %3 ]
  tail call void @fire(i32 noundef %4) #7
  %5 = add nsw i32 %4, -1
  %6 = icmp sgt i32 %5, %1
  br i1 %6, label %3, label %7, !llvm.loop !7

7:                                                ; preds = %3
  ret void
}

define dso_local i32 @cue_guard(i32 noundef %0) local_unnamed_addr #0 {
  %2 = tail call i32 @armed(i32 noundef %0) #7
  %3 = icmp eq i32 %2, 0
  br i1 %3, label %5, label %4

4:                                                ; preds = %1
  tail call void @fire(i32 noundef %0) #7
  br label %5

5:                                                ; preds = %1, %4
  %6 = phi i32 [ 0, %4 ], [ -1, %1 ]
  ret i32 %6
}

define dso_local i32 @cue_level(i32 noundef %0) local_unnamed_addr #0 {
  %2 = tail call i32 @level_of(i32 noundef %0) #7
  %3 = load i32, i32* @master, align 4, !tbaa !8
  %4 = mul nsw i32 %3, %2
  %5 = sdiv i32 %4, 255
  %6 = icmp sgt i32 %5, 0
  %7 = select i1 %6, i32 %5, i32 0
  %8 = icmp ult i32 %7, 255
  %9 = select i1 %8, i32 %7, i32 255
  ret i32 %9
}

define dso_local void @cue_crossfade(i32 noundef %0, i32 noundef %1) local_unnamed_addr #0 {
  br label %4

3:                                                ; preds = %4
  ret void

4:                                                ; preds = %2, %4
  %5 = phi i32 [ 0, %2 ], [ %7, %4 ]
  %6 = sub nuw nsw i32 255, %5
  tail call void @fade(i32 noundef %0, i32 noundef %6, i32 noundef 20) #7
  tail call void @fade(i32 noundef %1, i32 noundef %5, i32 noundef 20) #7
  %7 = add nuw nsw i32 %5, 5
  %8 = icmp ult i32 %5, 251
  br i1 %8, label %4, label %3, !llvm.loop !12
}

define dso_local void @cue_table(i32* nocapture noundef readonly %0, i32 noundef %1) local_unnamed_addr #0 {
  %3 = icmp sgt i32 %1, 0
  br i1 %3, label %4, label %11

4:                                                ; preds = %2, %4
  %5 = phi i32 [ %7, %4 ], [ %1, %2 ]
  %6 = phi i32* [ %8, %4 ], [ %0, %2 ]
  %7 = add nsw i32 %5, -1
  %8 = getelementptr inbounds i32, i32* %6, i64 1
  %9 = load i32, i32* %6, align 4, !tbaa !8
  tail call void @fire(i32 noundef %9) #7
  %10 = icmp ugt i32 %5, 1
  br i1 %10, label %4, label %11, !llvm.loop !13

11:                                               ; preds = %4, %2
  ret void
}

define dso_local i32 @cue_kind(i32 noundef %0) local_unnamed_addr #0 {
  switch i32 %0, label %7 [
    i32 0, label %8
    i32 1, label %2
    i32 2, label %3
    i32 17, label %4
    i32 -4, label %5
    i32 1000000, label %6
  ]

2:                                                ; preds = %1
  br label %8

3:                                                ; preds = %1
  br label %8

4:                                                ; preds = %1
  tail call void @fire(i32 noundef 1) #7
  br label %8

5:                                                ; preds = %1
  tail call void @fire(i32 noundef 2) #7
  br label %8

6:                                                ; preds = %1
  br label %8

7:                                                ; preds = %1
  br label %8

8:                                                ; preds = %1, %7, %6, %5, %4, %3, %2
  %9 = phi i32 [ 0, %7 ], [ 7, %6 ], [ 2, %5 ], [ 1, %4 ], [ 5, %3 ], [ 20, %2 ], [ 10, %1 ]
  ret i32 %9
}

define dso_local void @cue_select(i32 noundef %0) local_unnamed_addr #0 {
  %2 = and i32 %0, 7
  switch i32 %2, label %8 [
    i32 0, label %3
    i32 1, label %4
    i32 2, label %5
    i32 3, label %6
    i32 4, label %7
    i32 5, label %9
  ]

3:                                                ; preds = %1
  tail call void @fire(i32 noundef 1) #7
  br label %9

4:                                                ; preds = %1
  tail call void @fire(i32 noundef 2) #7
  br label %5

5:                                                ; preds = %1, %4
  tail call void @fire(i32 noundef 3) #7
  br label %9

6:                                                ; preds = %1
  tail call void @wait_ms(i32 noundef 1) #7
  br label %9

7:                                                ; preds = %1
  tail call void @fade(i32 noundef 1, i32 noundef 2, i32 noundef 3) #7
  br label %9

8:                                                ; preds = %1
  tail call void @fire(i32 noundef 0) #7
  br label %9

9:                                                ; preds = %1, %8, %7, %6, %5, %3
  ret void
}

define dso_local i32 @cue_nested(i32 noundef %0) local_unnamed_addr #2 {
  %2 = icmp sgt i32 %0, 0
  br i1 %2, label %3, label %80

3:                                                ; preds = %1, %82
  %4 = phi i32 [ %84, %82 ], [ 0, %1 ]
  %5 = phi i32 [ %83, %82 ], [ 0, %1 ]
  %6 = sub i32 %0, %4
  %7 = add i32 %6, -8
  %8 = lshr i32 %7, 3
  %9 = add nuw nsw i32 %8, 1
  %10 = sub i32 %0, %4
  %11 = icmp ult i32 %10, 8
  br i1 %11, label %77, label %12

12:                                               ; preds = %3
  %13 = and i32 %10, -8
  %14 = add i32 %4, %13
  %15 = insertelement <4 x i32> poison, i32 %4, i64 0
  %16 = shufflevector <4 x i32> %15, <4 x i32> poison, <4 x i32> zeroinitializer
  %17 = add nuw <4 x i32> %16, <i32 0, i32 1, i32 2, i32 3>
  %18 = insertelement <4 x i32> <i32 poison, i32 0, i32 0, i32 0>, i32 %5, i64 0
  %19 = insertelement <4 x i32> poison, i32 %4, i64 0
  %20 = shufflevector <4 x i32> %19, <4 x i32> poison, <4 x i32> zeroinitializer
  %21 = insertelement <4 x i32> poison, i32 %4, i64 0
  %22 = shufflevector <4 x i32> %21, <4 x i32> poison, <4 x i32> zeroinitializer
  %23 = and i32 %9, 1
  %24 = icmp ult i32 %7, 8
  br i1 %24, label %54, label %25

25:                                               ; preds = %12
  %26 = and i32 %9, 1073741822
  br label %27

27:                                               ; preds = %27, %25
  %28 = phi <4 x i32> [ %17, %25 ], [ %51, %27 ]
  %29 = phi <4 x i32> [ %18, %25 ], [ %49, %27 ]
  %30 = phi <4 x i32> [ zeroinitializer, %25 ], [ %50, %27 ]
  %31 = phi i32 [ 0, %25 ], [ %52, %27 ]
  %32 = add <4 x i32> %28, <i32 4, i32 4, i32 4, i32 4>
  %33 = xor <4 x i32> %28, %20
  %34 = xor <4 x i32> %32, %22
  %35 = mul nsw <4 x i32> %33, <i32 3, i32 3, i32 3, i32 3>
  %36 = mul nsw <4 x i32> %34, <i32 3, i32 3, i32 3, i32 3>
  %37 = add <4 x i32> %29, <i32 1, i32 1, i32 1, i32 1>
  %38 = add <4 x i32> %30, <i32 1, i32 1, i32 1, i32 1>
  %39 = add <4 x i32> %37, %35
  %40 = add <4 x i32> %38, %36
  %41 = add <4 x i32> %28, <i32 8, i32 8, i32 8, i32 8>
  %42 = add <4 x i32> %28, <i32 12, i32 12, i32 12, i32 12>
  %43 = xor <4 x i32> %41, %20
  %44 = xor <4 x i32> %42, %22
  %45 = mul nsw <4 x i32> %43, <i32 3, i32 3, i32 3, i32 3>
  %46 = mul nsw <4 x i32> %44, <i32 3, i32 3, i32 3, i32 3>
  %47 = add <4 x i32> %39, <i32 1, i32 1, i32 1, i32 1>
  %48 = add <4 x i32> %40, <i32 1, i32 1, i32 1, i32 1>
  %49 = add <4 x i32> %47, %45
  %50 = add <4 x i32> %48, %46
  %51 = add <4 x i32> %28, <i32 16, i32 16, i32 16, i32 16>
  %52 = add i32 %31, 2
  %53 = icmp eq i32 %52, %26
  br i1 %53, label %54, label %27, !llvm.loop !14

54:                                               ; preds = %27, %12
  %55 = phi <4 x i32> [ undef, %12 ], [ %49, %27 ]
  %56 = phi <4 x i32> [ undef, %12 ], [ %50, %27 ]
  %57 = phi <4 x i32> [ %17, %12 ], [ %51, %27 ]
  %58 = phi <4 x i32> [ %18, %12 ], [ %49, %27 ]
  %59 = phi <4 x i32> [ zeroinitializer, %12 ], [ %50, %27 ]
  %60 = icmp eq i32 %23, 0
  br i1 %60, label %71, label %61

61:                                               ; preds = %54
  %62 = add <4 x i32> %57, <i32 4, i32 4, i32 4, i32 4>
  %63 = xor <4 x i32> %57, %20
  %64 = xor <4 x i32> %62, %22
  %65 = mul nsw <4 x i32> %63, <i32 3, i32 3, i32 3, i32 3>
  %66 = mul nsw <4 x i32> %64, <i32 3, i32 3, i32 3, i32 3>
  %67 = add <4 x i32> %58, <i32 1, i32 1, i32 1, i32 1>
  %68 = add <4 x i32> %59, <i32 1, i32 1, i32 1, i32 1>
  %69 = add <4 x i32> %67, %65
  %70 = add <4 x i32> %68, %66
  br label %71

71:                                               ; preds = %54, %61
  %72 = phi <4 x i32> [ %55, %54 ], [ %69, %61 ]
  %73 = phi <4 x i32> [ %56, %54 ], [ %70, %61 ]
  %74 = add <4 x i32> %73, %72
  %75 = call i32 @llvm.vector.reduce.add.v4i32(<4 x i32> %74)
  %76 = icmp eq i32 %10, %13
  br i1 %76, label %82, label %77

77:                                               ; preds = %3, %71
  %78 = phi i32 [ %4, %3 ], [ %14, %71 ]
  %79 = phi i32 [ %5, %3 ], [ %75, %71 ]
  br label %86

80:                                               ; preds = %82, %1
  %81 = phi i32 [ 0, %1 ], [ %83, %82 ]
  ret i32 %81

82:                                               ; preds = %86, %71
  %83 = phi i32 [ %75, %71 ], [ %92, %86 ]
  %84 = add nuw nsw i32 %4, 1
  %85 = icmp eq i32 %84, %0
  br i1 %85, label %80, label %3, !llvm.loop !16

86:                                               ; preds = %77, %86
  %87 = phi i32 [ %93, %86 ], [ %78, %77 ]
  %88 = phi i32 [ %92, %86 ], [ %79, %77 ]
  %89 = xor i32 %87, %4
  %90 = mul nsw i32 %89, 3
  %91 = add i32 %88, 1
  %92 = add i32 %91, %90
  %93 = add nuw nsw i32 %87, 1
  %94 = icmp eq i32 %93, %0
  br i1 %94, label %82, label %86, !llvm.loop !17
}

define dso_local i8* @cue_name(i32 noundef %0) local_unnamed_addr #3 {
  %2 = icmp ult i32 %0, 16
  br i1 %2, label %3, label %7

3:                                                ; preds = %1
  %4 = zext i32 %0 to i64
  %5 = getelementptr inbounds [16 x i8*], [16 x i8*]* @names, i64 0, i64 %4
  %6 = load i8*, i8** %5, align 8, !tbaa !19
  br label %7

7:                                                ; preds = %1, %3
  %8 = phi i8* [ %6, %3 ], [ getelementptr inbounds ([5 x i8], [5 x i8]* @.str, i64 0, i64 0), %1 ]
  ret i8* %8
}

define dso_local i32 @cue_goto(i32 noundef %0) local_unnamed_addr #0 {
  %2 = icmp sgt i32 %0, 100
  br i1 %2, label %7, label %3

3:                                                ; preds = %1, %3
  %4 = phi i32 [ %5, %3 ], [ %0, %1 ]
  tail call void @fire(i32 noundef %4) #7
  %5 = add nsw i32 %4, 7
  %6 = icmp sgt i32 %4, 93
  br i1 %6, label %7, label %3

7:                                                ; preds = %3, %1
  %8 = phi i32 [ %0, %1 ], [ %5, %3 ]
  ret i32 %8
}

define dso_local i32 @cue_hash(i8* nocapture noundef readonly %0) local_unnamed_addr #4 {
  %2 = load i8, i8* %0, align 1, !tbaa !21
  %3 = icmp eq i8 %2, 0
  br i1 %3, label %14, label %4

4:                                                ; preds = %1, %4
  %5 = phi i8 [ %12, %4 ], [ %2, %1 ]
  %6 = phi i32 [ %11, %4 ], [ -2128831035, %1 ]
  %7 = phi i8* [ %8, %4 ], [ %0, %1 ]
  %8 = getelementptr inbounds i8, i8* %7, i64 1
  %9 = zext i8 %5 to i32
  %10 = xor i32 %6, %9
  %11 = mul i32 %10, 16777619
  %12 = load i8, i8* %8, align 1, !tbaa !21
  %13 = icmp eq i8 %12, 0
  br i1 %13, label %14, label %4, !llvm.loop !22

14:                                               ; preds = %4, %1
  %15 = phi i32 [ -2128831035, %1 ], [ %11, %4 ]
  ret i32 %15
}

define dso_local i32 @cue_clamp(i32 noundef %0, i32 noundef %1, i32 noundef %2) local_unnamed_addr #5 {
  %4 = icmp slt i32 %0, %1
  %5 = icmp sgt i32 %0, %2
  %6 = select i1 %5, i32 %2, i32 %0
  %7 = select i1 %4, i32 %1, i32 %6
  ret i32 %7
}

define dso_local i32 @l_collatz(i32 noundef %0) local_unnamed_addr #0 {
  %2 = icmp eq i32 %0, 1
  br i1 %2, label %14, label %3

3:                                                ; preds = %1, %3
  %4 = phi i32 [ %12, %3 ], [ 0, %1 ]
  %5 = phi i32 [ %11, %3 ], [ %0, %1 ]
  %6 = and i32 %5, 1
  %7 = icmp eq i32 %6, 0
  %8 = mul i32 %5, 3
  %9 = add i32 %8, 1
  %10 = lshr i32 %5, 1
  %11 = select i1 %7, i32 %10, i32 %9
  %12 = add nuw nsw i32 %4, 1
  %13 = icmp eq i32 %11, 1
  br i1 %13, label %14, label %3, !llvm.loop !5

14:                                               ; preds = %3, %1
  %15 = phi i32 [ 0, %1 ], [ %12, %3 ]
  ret i32 %15
}

define dso_local i32 @l_gcd(i32 noundef %0, i32 noundef %1) local_unnamed_addr #0 {
  %3 = icmp eq i32 %1, 0
  br i1 %3, label %9, label %4

4:                                                ; preds = %2, %4
  %5 = phi i32 [ %6, %4 ], [ %0, %2 ]
  %6 = phi i32 [ %7, %4 ], [ %1, %2 ]
  %7 = srem i32 %5, %6
  %8 = icmp eq i32 %7, 0
  br i1 %8, label %9, label %4, !llvm.loop !7

9:                                                ; preds = %4, %2
  %10 = phi i32 [ %0, %2 ], [ %6, %4 ]
  ret i32 %10
}

define dso_local i32 @l_search(i32* nocapture noundef readonly %0, i32 noundef %1, i32 noundef %2) local_unnamed_addr #1 {
  %4 = icmp slt i32 %1, 1
  br i1 %4, label %24, label %5

5:                                                ; preds = %3
  %6 = add nsw i32 %1, -1
  br label %7

7:                                                ; preds = %5, %17
  %8 = phi i32 [ %22, %17 ], [ %6, %5 ]
  %9 = phi i32 [ %21, %17 ], [ 0, %5 ]
  %10 = sub nsw i32 %8, %9
  %11 = sdiv i32 %10, 2
  %12 = add nsw i32 %11, %9
  %13 = sext i32 %12 to i64
  %14 = getelementptr inbounds i32, i32* %0, i64 %13
  %15 = load i32, i32* %14, align 4, !tbaa !8
  %16 = icmp eq i32 %15, %2
  br i1 %16, label %24, label %17

17:                                               ; preds = %7
  %18 = icmp slt i32 %15, %2
  %19 = add nsw i32 %12, 1
  %20 = add nsw i32 %12, -1
  %21 = select i1 %18, i32 %19, i32 %9
  %22 = select i1 %18, i32 %8, i32 %20
  %23 = icmp slt i32 %22, %21
  br i1 %23, label %24, label %7

24:                                               ; preds = %17, %7, %3
  %25 = phi i32 [ -1, %3 ], [ %12, %7 ], [ -1, %17 ]
  ret i32 %25
}

define dso_local void @l_bubble(i32* nocapture noundef %0, i32 noundef %1) local_unnamed_addr #2 {
  %3 = icmp sgt i32 %1, 0
  br i1 %3, label %4, label %16

4:                                                ; preds = %2, %28
  %5 = phi i32 [ %29, %28 ], [ 0, %2 ]
  %6 = xor i32 %5, -1
  %7 = add i32 %6, %1
  %8 = zext i32 %7 to i64
  %9 = sub nsw i32 %1, %5
  %10 = icmp sgt i32 %9, 1
  br i1 %10, label %11, label %28

11:                                               ; preds = %4
  %12 = and i64 %8, 1
  %13 = icmp eq i32 %7, 1
  br i1 %13, label %17, label %14

14:                                               ; preds = %11
  %15 = and i64 %8, 4294967294
  br label %31

16:                                               ; preds = %28, %2
  ret void

17:                                               ; preds = %51, %11
  %18 = phi i64 [ 0, %11 ], [ %44, %51 ]
  %19 = phi i64 [ 1, %11 ], [ %52, %51 ]
  %20 = icmp eq i64 %12, 0
  br i1 %20, label %28, label %21

21:                                               ; preds = %17
  %22 = getelementptr inbounds i32, i32* %0, i64 %18
  %23 = load i32, i32* %22, align 4, !tbaa !8
  %24 = getelementptr inbounds i32, i32* %0, i64 %19
  %25 = load i32, i32* %24, align 4, !tbaa !8
  %26 = icmp sgt i32 %23, %25
  br i1 %26, label %27, label %28

27:                                               ; preds = %21
  store i32 %25, i32* %22, align 4, !tbaa !8
  store i32 %23, i32* %24, align 4, !tbaa !8
  br label %28

28:                                               ; preds = %17, %27, %21, %4
  %29 = add nuw nsw i32 %5, 1
  %30 = icmp eq i32 %29, %1
  br i1 %30, label %16, label %4, !llvm.loop !12

31:                                               ; preds = %51, %14
  %32 = phi i64 [ 0, %14 ], [ %44, %51 ]
  %33 = phi i64 [ 1, %14 ], [ %52, %51 ]
  %34 = phi i64 [ 0, %14 ], [ %53, %51 ]
  %35 = or i64 %32, 1
  %36 = getelementptr inbounds i32, i32* %0, i64 %32
  %37 = load i32, i32* %36, align 4, !tbaa !8
  %38 = getelementptr inbounds i32, i32* %0, i64 %33
  %39 = load i32, i32* %38, align 4, !tbaa !8
  %40 = icmp sgt i32 %37, %39
  br i1 %40, label %41, label %42

41:                                               ; preds = %31
  store i32 %39, i32* %36, align 4, !tbaa !8
  store i32 %37, i32* %38, align 4, !tbaa !8
  br label %42

42:                                               ; preds = %31, %41
  %43 = add nuw nsw i64 %33, 1
  %44 = add nuw nsw i64 %32, 2
  %45 = getelementptr inbounds i32, i32* %0, i64 %35
  %46 = load i32, i32* %45, align 4, !tbaa !8
  %47 = getelementptr inbounds i32, i32* %0, i64 %43
  %48 = load i32, i32* %47, align 4, !tbaa !8
  %49 = icmp sgt i32 %46, %48
  br i1 %49, label %50, label %51

50:                                               ; preds = %42
  store i32 %48, i32* %45, align 4, !tbaa !8
  store i32 %46, i32* %47, align 4, !tbaa !8
  br label %51

51:                                               ; preds = %50, %42
  %52 = add nuw nsw i64 %33, 2
  %53 = add i64 %34, 2
  %54 = icmp eq i64 %53, %15
  br i1 %54, label %17, label %31, !llvm.loop !13
}

define dso_local i32 @l_crc(i8* nocapture noundef readonly %0, i32 noundef %1) local_unnamed_addr #1 {
  %3 = icmp sgt i32 %1, 0
  br i1 %3, label %4, label %8

4:                                                ; preds = %2
  %5 = zext i32 %1 to i64
  br label %10

6:                                                ; preds = %10
  %7 = xor i32 %56, -1
  br label %8

8:                                                ; preds = %6, %2
  %9 = phi i32 [ 0, %2 ], [ %7, %6 ]
  ret i32 %9

10:                                               ; preds = %4, %10
  %11 = phi i64 [ 0, %4 ], [ %57, %10 ]
  %12 = phi i32 [ -1, %4 ], [ %56, %10 ]
  %13 = getelementptr inbounds i8, i8* %0, i64 %11
  %14 = load i8, i8* %13, align 1, !tbaa !14
  %15 = zext i8 %14 to i32
  %16 = xor i32 %12, %15
  %17 = lshr i32 %16, 1
  %18 = and i32 %16, 1
  %19 = sub nsw i32 0, %18
  %20 = and i32 %19, -306674912
  %21 = xor i32 %20, %17
  %22 = lshr i32 %21, 1
  %23 = and i32 %17, 1
  %24 = sub nsw i32 0, %23
  %25 = and i32 %24, -306674912
  %26 = xor i32 %25, %22
  %27 = lshr i32 %26, 1
  %28 = and i32 %22, 1
  %29 = sub nsw i32 0, %28
  %30 = and i32 %29, -306674912
  %31 = xor i32 %30, %27
  %32 = lshr i32 %31, 1
  %33 = and i32 %27, 1
  %34 = sub nsw i32 0, %33
  %35 = and i32 %34, -306674912
  %36 = xor i32 %35, %32
  %37 = lshr i32 %36, 1
  %38 = and i32 %32, 1
  %39 = sub nsw i32 0, %38
  %40 = and i32 %39, -306674912
  %41 = xor i32 %40, %37
  %42 = lshr i32 %41, 1
  %43 = and i32 %37, 1
  %44 = sub nsw i32 0, %43
  %45 = and i32 %44, -306674912
  %46 = xor i32 %45, %42
  %47 = lshr i32 %46, 1
  %48 = and i32 %42, 1
  %49 = sub nsw i32 0, %48
  %50 = and i32 %49, -306674912
  %51 = xor i32 %50, %47
  %52 = lshr i32 %51, 1
  %53 = and i32 %47, 1
  %54 = sub nsw i32 0, %53
  %55 = and i32 %54, -306674912
  %56 = xor i32 %55, %52
  %57 = add nuw nsw i64 %11, 1
  %58 = icmp eq i64 %57, %5
  br i1 %58, label %6, label %10, !llvm.loop !15
}

define dso_local i32 @l_parse(i8* nocapture noundef readonly %0) local_unnamed_addr #1 {
  br label %2

2:                                                ; preds = %5, %1
  %3 = phi i8* [ %0, %1 ], [ %6, %5 ]
  %4 = load i8, i8* %3, align 1, !tbaa !14
  switch i8 %4, label %10 [
    i8 32, label %5
    i8 9, label %5
    i8 45, label %7
  ]

5:                                                ; preds = %2, %2
  %6 = getelementptr inbounds i8, i8* %3, i64 1
  br label %2, !llvm.loop !16

7:                                                ; preds = %2
  %8 = getelementptr inbounds i8, i8* %3, i64 1
  %9 = load i8, i8* %8, align 1, !tbaa !14
  br label %10

10:                                               ; preds = %2, %7
  %11 = phi i8 [ %9, %7 ], [ %4, %2 ]
  %12 = phi i8* [ %8, %7 ], [ %3, %2 ]
  %13 = phi i32 [ -1, %7 ], [ 1, %2 ]
  %14 = add i8 %11, -48
  %15 = icmp ult i8 %14, 10
  br i1 %15, label %16, label %28

16:                                               ; preds = %10, %16
  %17 = phi i8 [ %25, %16 ], [ %11, %10 ]
  %18 = phi i32 [ %23, %16 ], [ 0, %10 ]
  %19 = phi i8* [ %24, %16 ], [ %12, %10 ]
  %20 = zext i8 %17 to i32
  %21 = mul nsw i32 %18, 10
  %22 = add i32 %21, -48
  %23 = add i32 %22, %20
  %24 = getelementptr inbounds i8, i8* %19, i64 1
  %25 = load i8, i8* %24, align 1, !tbaa !14
  %26 = add i8 %25, -48
  %27 = icmp ult i8 %26, 10
  br i1 %27, label %16, label %28, !llvm.loop !17

28:                                               ; preds = %16, %10
  %29 = phi i32 [ 0, %10 ], [ %23, %16 ]
  %30 = mul nsw i32 %29, %13
  ret i32 %30
}

define dso_local i32 @l_state(i8* nocapture noundef readonly %0) local_unnamed_addr #1 {
  %2 = load i8, i8* %0, align 1, !tbaa !14
  %3 = icmp eq i8 %2, 0
  br i1 %3, label %21, label %4

4:                                                ; preds = %1, %16
  %5 = phi i8 [ %19, %16 ], [ %2, %1 ]
  %6 = phi i32 [ %17, %16 ], [ 0, %1 ]
  %7 = phi i8* [ %18, %16 ], [ %0, %1 ]
  switch i32 %6, label %16 [
    i32 0, label %8
    i32 1, label %11
    i32 2, label %25
  ]

8:                                                ; preds = %4
  %9 = icmp eq i8 %5, 97
  %10 = zext i1 %9 to i32
  br label %16

11:                                               ; preds = %4
  %12 = icmp eq i8 %5, 98
  %13 = icmp eq i8 %5, 97
  %14 = zext i1 %13 to i32
  %15 = select i1 %12, i32 2, i32 %14
  br label %16

16:                                               ; preds = %8, %11, %4
  %17 = phi i32 [ %6, %4 ], [ %15, %11 ], [ %10, %8 ]
  %18 = getelementptr inbounds i8, i8* %7, i64 1
  %19 = load i8, i8* %18, align 1, !tbaa !14
  %20 = icmp eq i8 %19, 0
  br i1 %20, label %21, label %4, !llvm.loop !18

21:                                               ; preds = %16, %1
  %22 = phi i32 [ 0, %1 ], [ %17, %16 ]
  %23 = icmp eq i32 %22, 2
  %24 = zext i1 %23 to i32
  br label %25

25:                                               ; preds = %4, %21
  %26 = phi i32 [ %24, %21 ], [ 1, %4 ]
  ret i32 %26
}

define dso_local i32 @l_vowels(i8* nocapture noundef readonly %0) local_unnamed_addr #3 {
  %2 = load i8, i8* %0, align 1, !tbaa !14
  %3 = icmp eq i8 %2, 0
  br i1 %3, label %18, label %4

4:                                                ; preds = %1, %13
  %5 = phi i8 [ %16, %13 ], [ %2, %1 ]
  %6 = phi i32 [ %14, %13 ], [ 0, %1 ]
  %7 = phi i8* [ %15, %13 ], [ %0, %1 ]
  %8 = sext i8 %5 to i32
  %9 = add nsw i32 %8, -97
  %10 = tail call i32 @llvm.fshl.i32(i32 %9, i32 %9, i32 31)
  switch i32 %10, label %13 [
    i32 0, label %11
    i32 2, label %11
    i32 4, label %11
    i32 7, label %11
    i32 10, label %11
  ]

11:                                               ; preds = %4, %4, %4, %4, %4
  %12 = add nsw i32 %6, 1
  br label %13

13:                                               ; preds = %4, %11
  %14 = phi i32 [ %6, %4 ], [ %12, %11 ]
  %15 = getelementptr inbounds i8, i8* %7, i64 1
  %16 = load i8, i8* %15, align 1, !tbaa !14
  %17 = icmp eq i8 %16, 0
  br i1 %17, label %18, label %4, !llvm.loop !19

18:                                               ; preds = %13, %1
  %19 = phi i32 [ 0, %1 ], [ %14, %13 ]
  ret i32 %19
}

define dso_local void @l_matrix(float* nocapture noundef writeonly %0, float* nocapture noundef readonly %1, float* nocapture noundef readonly %2, i32 noundef %3) local_unnamed_addr #4 {
  %5 = icmp sgt i32 %3, 0
  br i1 %5, label %6, label %16

6:                                                ; preds = %4
  %7 = zext i32 %3 to i64
  %8 = zext i32 %3 to i64
  %9 = and i64 %8, 1
  %10 = icmp eq i32 %3, 1
  %11 = and i64 %8, 4294967294
  %12 = icmp eq i64 %9, 0
  br label %13

13:                                               ; preds = %19, %6
  %14 = phi i64 [ 0, %6 ], [ %20, %19 ]
  %15 = mul nsw i64 %14, %7
  br label %17

16:                                               ; preds = %19, %4
  ret void

17:                                               ; preds = %35, %13
  %18 = phi i64 [ 0, %13 ], [ %39, %35 ]
  br i1 %10, label %22, label %41

19:                                               ; preds = %35
  %20 = add nuw nsw i64 %14, 1
  %21 = icmp eq i64 %20, %8
  br i1 %21, label %16, label %13, !llvm.loop !20

22:                                               ; preds = %41, %17
  %23 = phi float [ undef, %17 ], [ %61, %41 ]
  %24 = phi i64 [ 0, %17 ], [ %62, %41 ]
  %25 = phi float [ 0.000000e+00, %17 ], [ %61, %41 ]
  br i1 %12, label %35, label %26

26:                                               ; preds = %22
  %27 = add nuw nsw i64 %24, %15
  %28 = getelementptr inbounds float, float* %1, i64 %27
  %29 = load float, float* %28, align 4, !tbaa !21
  %30 = mul nsw i64 %24, %7
  %31 = add nuw nsw i64 %30, %18
  %32 = getelementptr inbounds float, float* %2, i64 %31
  %33 = load float, float* %32, align 4, !tbaa !21
  %34 = tail call float @llvm.fmuladd.f32(float %29, float %33, float %25)
  br label %35

35:                                               ; preds = %22, %26
  %36 = phi float [ %23, %22 ], [ %34, %26 ]
  %37 = add nuw nsw i64 %18, %15
  %38 = getelementptr inbounds float, float* %0, i64 %37
  store float %36, float* %38, align 4, !tbaa !21
  %39 = add nuw nsw i64 %18, 1
  %40 = icmp eq i64 %39, %8
  br i1 %40, label %19, label %17, !llvm.loop !23

41:                                               ; preds = %17, %41
  %42 = phi i64 [ %62, %41 ], [ 0, %17 ]
  %43 = phi float [ %61, %41 ], [ 0.000000e+00, %17 ]
  %44 = phi i64 [ %63, %41 ], [ 0, %17 ]
  %45 = add nuw nsw i64 %42, %15
  %46 = getelementptr inbounds float, float* %1, i64 %45
  %47 = load float, float* %46, align 4, !tbaa !21
  %48 = mul nsw i64 %42, %7
  %49 = add nuw nsw i64 %48, %18
  %50 = getelementptr inbounds float, float* %2, i64 %49
  %51 = load float, float* %50, align 4, !tbaa !21
  %52 = tail call float @llvm.fmuladd.f32(float %47, float %51, float %43)
  %53 = or i64 %42, 1
  %54 = add nuw nsw i64 %53, %15
  %55 = getelementptr inbounds float, float* %1, i64 %54
  %56 = load float, float* %55, align 4, !tbaa !21
  %57 = mul nsw i64 %53, %7
  %58 = add nuw nsw i64 %57, %18
  %59 = getelementptr inbounds float, float* %2, i64 %58
  %60 = load float, float* %59, align 4, !tbaa !21
  %61 = tail call float @llvm.fmuladd.f32(float %56, float %60, float %52)
  %62 = add nuw nsw i64 %42, 2
  %63 = add i64 %44, 2
  %64 = icmp eq i64 %63, %11
  br i1 %64, label %22, label %41, !llvm.loop !24
}

define dso_local i32 @l_break(i32 noundef %0) local_unnamed_addr #0 {
  br label %2

2:                                                ; preds = %10, %1
  %3 = phi i32 [ 0, %1 ], [ %12, %10 ]
  %4 = phi i32 [ 0, %1 ], [ %11, %10 ]
  %5 = urem i32 %3, 3
  %6 = icmp eq i32 %5, 0
  br i1 %6, label %10, label %7

7:                                                ; preds = %2
  %8 = icmp sgt i32 %4, %0
  %9 = add nsw i32 %4, %3
  br i1 %8, label %13, label %10

10:                                               ; preds = %7, %2
  %11 = phi i32 [ %4, %2 ], [ %9, %7 ]
  %12 = add nuw nsw i32 %3, 1
  br label %2

13:                                               ; preds = %7
  ret i32 %9
}

define dso_local void @l_fill(i32* nocapture noundef writeonly %0, i32 noundef %1) local_unnamed_addr #6 {
  %3 = icmp sgt i32 %1, 0
  br i1 %3, label %4, label %78

4:                                                ; preds = %2
  %5 = zext i32 %1 to i64
  %6 = icmp ult i32 %1, 8
  br i1 %6, label %76, label %7

7:                                                ; preds = %4
  %8 = and i64 %5, 4294967288
  %9 = add nsw i64 %8, -8
  %10 = lshr exact i64 %9, 3
  %11 = add nuw nsw i64 %10, 1
  %12 = and i64 %11, 7
  %13 = icmp ult i64 %9, 56
  br i1 %13, label %61, label %14

14:                                               ; preds = %7
  %15 = and i64 %11, 4611686018427387896
  br label %16

16:                                               ; preds = %16, %14
  %17 = phi i64 [ 0, %14 ], [ %58, %16 ]
  %18 = phi i64 [ 0, %14 ], [ %59, %16 ]
  %19 = getelementptr inbounds i32, i32* %0, i64 %17
  %20 = bitcast i32* %19 to <4 x i32>*
  store <4 x i32> <i32 7, i32 7, i32 7, i32 7>, <4 x i32>* %20, align 4, !tbaa !8
  %21 = getelementptr inbounds i32, i32* %19, i64 4
  %22 = bitcast i32* %21 to <4 x i32>*
  store <4 x i32> <i32 7, i32 7, i32 7, i32 7>, <4 x i32>* %22, align 4, !tbaa !8
  %23 = or i64 %17, 8
  %24 = getelementptr inbounds i32, i32* %0, i64 %23
  %25 = bitcast i32* %24 to <4 x i32>*
  store <4 x i32> <i32 7, i32 7, i32 7, i32 7>, <4 x i32>* %25, align 4, !tbaa !8
  %26 = getelementptr inbounds i32, i32* %24, i64 4
  %27 = bitcast i32* %26 to <4 x i32>*
  store <4 x i32> <i32 7, i32 7, i32 7, i32 7>, <4 x i32>* %27, align 4, !tbaa !8
  %28 = or i64 %17, 16
  %29 = getelementptr inbounds i32, i32* %0, i64 %28
  %30 = bitcast i32* %29 to <4 x i32>*
  store <4 x i32> <i32 7, i32 7, i32 7, i32 7>, <4 x i32>* %30, align 4, !tbaa !8
  %31 = getelementptr inbounds i32, i32* %29, i64 4
  %32 = bitcast i32* %31 to <4 x i32>*
  store <4 x i32> <i32 7, i32 7, i32 7, i32 7>, <4 x i32>* %32, align 4, !tbaa !8
  %33 = or i64 %17, 24
  %34 = getelementptr inbounds i32, i32* %0, i64 %33
  %35 = bitcast i32* %34 to <4 x i32>*
  store <4 x i32> <i32 7, i32 7, i32 7, i32 7>, <4 x i32>* %35, align 4, !tbaa !8
  %36 = getelementptr inbounds i32, i32* %34, i64 4
  %37 = bitcast i32* %36 to <4 x i32>*
  store <4 x i32> <i32 7, i32 7, i32 7, i32 7>, <4 x i32>* %37, align 4, !tbaa !8
  %38 = or i64 %17, 32
  %39 = getelementptr inbounds i32, i32* %0, i64 %38
  %40 = bitcast i32* %39 to <4 x i32>*
  store <4 x i32> <i32 7, i32 7, i32 7, i32 7>, <4 x i32>* %40, align 4, !tbaa !8
  %41 = getelementptr inbounds i32, i32* %39, i64 4
  %42 = bitcast i32* %41 to <4 x i32>*
  store <4 x i32> <i32 7, i32 7, i32 7, i32 7>, <4 x i32>* %42, align 4, !tbaa !8
  %43 = or i64 %17, 40
  %44 = getelementptr inbounds i32, i32* %0, i64 %43
  %45 = bitcast i32* %44 to <4 x i32>*
  store <4 x i32> <i32 7, i32 7, i32 7, i32 7>, <4 x i32>* %45, align 4, !tbaa !8
  %46 = getelementptr inbounds i32, i32* %44, i64 4
  %47 = bitcast i32* %46 to <4 x i32>*
  store <4 x i32> <i32 7, i32 7, i32 7, i32 7>, <4 x i32>* %47, align 4, !tbaa !8
  %48 = or i64 %17, 48
  %49 = getelementptr inbounds i32, i32* %0, i64 %48
  %50 = bitcast i32* %49 to <4 x i32>*
  store <4 x i32> <i32 7, i32 7, i32 7, i32 7>, <4 x i32>* %50, align 4, !tbaa !8
  %51 = getelementptr inbounds i32, i32* %49, i64 4
  %52 = bitcast i32* %51 to <4 x i32>*
  store <4 x i32> <i32 7, i32 7, i32 7, i32 7>, <4 x i32>* %52, align 4, !tbaa !8
  %53 = or i64 %17, 56
  %54 = getelementptr inbounds i32, i32* %0, i64 %53
  %55 = bitcast i32* %54 to <4 x i32>*
  store <4 x i32> <i32 7, i32 7, i32 7, i32 7>, <4 x i32>* %55, align 4, !tbaa !8
  %56 = getelementptr inbounds i32, i32* %54, i64 4
  %57 = bitcast i32* %56 to <4 x i32>*
  store <4 x i32> <i32 7, i32 7, i32 7, i32 7>, <4 x i32>* %57, align 4, !tbaa !8
  %58 = add nuw i64 %17, 64
  %59 = add nuw i64 %18, 8
  %60 = icmp eq i64 %59, %15
  br i1 %60, label %61, label %16, !llvm.loop !25

61:                                               ; preds = %16, %7
  %62 = phi i64 [ 0, %7 ], [ %58, %16 ]
  %63 = icmp eq i64 %12, 0
  br i1 %63, label %74, label %64

64:                                               ; preds = %61, %64
  %65 = phi i64 [ %71, %64 ], [ %62, %61 ]
  %66 = phi i64 [ %72, %64 ], [ 0, %61 ]
  %67 = getelementptr inbounds i32, i32* %0, i64 %65
  %68 = bitcast i32* %67 to <4 x i32>*
  store <4 x i32> <i32 7, i32 7, i32 7, i32 7>, <4 x i32>* %68, align 4, !tbaa !8
  %69 = getelementptr inbounds i32, i32* %67, i64 4
  %70 = bitcast i32* %69 to <4 x i32>*
  store <4 x i32> <i32 7, i32 7, i32 7, i32 7>, <4 x i32>* %70, align 4, !tbaa !8
  %71 = add nuw i64 %65, 8
  %72 = add i64 %66, 1
  %73 = icmp eq i64 %72, %12
  br i1 %73, label %74, label %64, !llvm.loop !27

74:                                               ; preds = %64, %61
  %75 = icmp eq i64 %8, %5
  br i1 %75, label %78, label %76

76:                                               ; preds = %4, %74
  %77 = phi i64 [ 0, %4 ], [ %8, %74 ]
  br label %79

78:                                               ; preds = %79, %74, %2
  ret void

79:                                               ; preds = %76, %79
  %80 = phi i64 [ %82, %79 ], [ %77, %76 ]
  %81 = getelementptr inbounds i32, i32* %0, i64 %80
  store i32 7, i32* %81, align 4, !tbaa !8
  %82 = add nuw nsw i64 %80, 1
  %83 = icmp eq i64 %82, %5
  br i1 %83, label %78, label %79, !llvm.loop !29
}

define dso_local i32 @m_field(%struct.point* nocapture noundef readonly %0) local_unnamed_addr #0 {
  %2 = getelementptr inbounds %struct.point, %struct.point* %0, i64 0, i32 0
  %3 = load i32, i32* %2, align 4, !tbaa !5
  %4 = getelementptr inbounds %struct.point, %struct.point* %0, i64 0, i32 1
  %5 = load i32, i32* %4, align 4, !tbaa !10
  %6 = mul nsw i32 %5, %3
  ret i32 %6
}

define dso_local void @m_set(%struct.cue* nocapture noundef writeonly %0, double noundef %1) local_unnamed_addr #1 {
  %3 = getelementptr inbounds %struct.cue, %struct.cue* %0, i64 0, i32 2
  store double %1, double* %3, align 8, !tbaa !11
  %4 = getelementptr inbounds %struct.cue, %struct.cue* %0, i64 0, i32 1, i32 1
  store i32 9, i32* %4, align 4, !tbaa !15
  ret void
}

define dso_local i64 @m_point(i32 noundef %0, i32 noundef %1) local_unnamed_addr #2 {
  %3 = zext i32 %1 to i64
  %4 = shl nuw i64 %3, 32
  %5 = zext i32 %0 to i64
  %6 = or i64 %4, %5
  ret i64 %6
}

define dso_local void @m_cue(%struct.cue* noalias nocapture writeonly sret(%struct.cue) align 8 %0) local_unnamed_addr #3 {
  %2 = getelementptr inbounds %struct.cue, %struct.cue* %0, i64 0, i32 0, i64 0
  tail call void @llvm.memcpy.p0i8.p0i8.i64(i8* noundef nonnull align 8 dereferenceable(40) %2, i8* noundef nonnull align 8 dereferenceable(40) getelementptr inbounds (%struct.cue, %struct.cue* @__const.m_cue.c, i64 0, i32 0, i64 0), i64 40, i1 false)
  ret void
}

define dso_local void @m_byval(%struct.cue* nocapture noundef readonly byval(%struct.cue) align 8 %0, i32* nocapture noundef writeonly %1) local_unnamed_addr #5 {
  %3 = getelementptr inbounds %struct.cue, %struct.cue* %0, i64 0, i32 1, i32 0
  %4 = load i32, i32* %3, align 8, !tbaa !16
  %5 = getelementptr inbounds %struct.cue, %struct.cue* %0, i64 0, i32 2
  %6 = load double, double* %5, align 8, !tbaa !11
  %7 = fptosi double %6 to i32
  %8 = add nsw i32 %4, %7
  store i32 %8, i32* %1, align 4, !tbaa !17
  ret void
}

define dso_local i32 @m_tight(%struct.tight* nocapture noundef readonly %0) local_unnamed_addr #0 {
  %2 = getelementptr inbounds %struct.tight, %struct.tight* %0, i64 0, i32 1
  %3 = load i32, i32* %2, align 1, !tbaa !18
  %4 = getelementptr inbounds %struct.tight, %struct.tight* %0, i64 0, i32 2
  %5 = load i16, i16* %4, align 1, !tbaa !21
  %6 = sext i16 %5 to i32
  %7 = add nsw i32 %3, %6
  %8 = getelementptr inbounds %struct.tight, %struct.tight* %0, i64 0, i32 0
  %9 = load i8, i8* %8, align 1, !tbaa !22
  %10 = sext i8 %9 to i32
  %11 = add nsw i32 %7, %10
  ret i32 %11
}

define dso_local i32 @m_union(float noundef %0) local_unnamed_addr #2 {
  %2 = bitcast float %0 to i32
  ret i32 %2
}

define dso_local i32 @m_bitfield(i32 %0) local_unnamed_addr #2 {
  %2 = and i32 %0, 7
  %3 = lshr i32 %0, 3
  %4 = and i32 %3, 31
  %5 = lshr i32 %0, 8
  %6 = mul nuw nsw i32 %4, %5
  %7 = add nuw nsw i32 %6, %2
  ret i32 %7
}

define dso_local i32 @m_lookup(i32 noundef %0) local_unnamed_addr #0 {
  %2 = and i32 %0, 15
  %3 = zext i32 %2 to i64
  %4 = getelementptr inbounds [16 x i32], [16 x i32]* @lookup, i64 0, i64 %3
  %5 = load i32, i32* %4, align 4, !tbaa !17
  %6 = and i32 %0, 7
  %7 = zext i32 %6 to i64
  %8 = getelementptr inbounds [8 x i32], [8 x i32]* @table, i64 0, i64 %7
  %9 = load i32, i32* %8, align 4, !tbaa !17
  %10 = add nsw i32 %9, %5
  ret i32 %10
}

define dso_local i32 @m_matrix(i32 noundef %0, i32 noundef %1) local_unnamed_addr #5 {
  %3 = sext i32 %0 to i64
  %4 = sext i32 %1 to i64
  %5 = getelementptr inbounds [4 x [5 x i32]], [4 x [5 x i32]]* @matrix, i64 0, i64 %3, i64 %4
  %6 = load i32, i32* %5, align 4, !tbaa !17
  %7 = add nsw i32 %6, 1
  store i32 %7, i32* %5, align 4, !tbaa !17
  ret i32 %7
}

define dso_local i32 @m_global() local_unnamed_addr #0 {
  %1 = load i32, i32* getelementptr inbounds (%struct.point, %struct.point* @corner, i64 0, i32 0), align 4, !tbaa !5
  %2 = load i32, i32* getelementptr inbounds ([4 x %struct.cue], [4 x %struct.cue]* @show, i64 0, i64 2, i32 1, i32 1), align 4, !tbaa !15
  %3 = add nsw i32 %2, %1
  ret i32 %3
}

define dso_local nonnull i32* @m_address(i32 noundef %0) local_unnamed_addr #2 {
  %2 = sext i32 %0 to i64
  %3 = getelementptr inbounds [8 x i32], [8 x i32]* @table, i64 0, i64 %2
  ret i32* %3
}

define dso_local i64 @m_offset() local_unnamed_addr #2 {
  ret i64 24
}

define dso_local void @m_copy(%struct.cue* nocapture noundef writeonly %0, %struct.cue* nocapture noundef readonly %1) local_unnamed_addr #3 {
  %3 = getelementptr %struct.cue, %struct.cue* %0, i64 0, i32 0, i64 0
  %4 = getelementptr %struct.cue, %struct.cue* %1, i64 0, i32 0, i64 0
  tail call void @llvm.memcpy.p0i8.p0i8.i64(i8* noundef nonnull align 8 dereferenceable(40) %3, i8* noundef nonnull align 8 dereferenceable(40) %4, i64 40, i1 false), !tbaa.struct !23
  ret void
}

define dso_local void @m_clear(i8* nocapture noundef writeonly %0, i64 noundef %1) local_unnamed_addr #7 {
  tail call void @llvm.memset.p0i8.i64(i8* align 1 %0, i8 0, i64 %1, i1 false)
  ret void
}

define dso_local void @m_move(i8* nocapture noundef writeonly %0, i8* nocapture noundef readonly %1, i64 noundef %2) local_unnamed_addr #3 {
  tail call void @llvm.memcpy.p0i8.p0i8.i64(i8* align 1 %0, i8* align 1 %1, i64 %2, i1 false)
  %4 = getelementptr inbounds i8, i8* %0, i64 1
  tail call void @llvm.memmove.p0i8.p0i8.i64(i8* nonnull align 1 %4, i8* align 1 %1, i64 %2, i1 false)
  ret void
}

define dso_local i32 @m_local(i32 noundef %0) local_unnamed_addr #9 {
  %2 = alloca [10 x i32], align 16
  %3 = bitcast [10 x i32]* %2 to i8*
  call void @llvm.lifetime.start.p0i8(i64 40, i8* nonnull %3) #14
  call void @llvm.memset.p0i8.i64(i8* noundef nonnull align 16 dereferenceable(40) %3, i8 0, i64 40, i1 false)
  %4 = getelementptr inbounds [10 x i32], [10 x i32]* %2, i64 0, i64 0
  store i32 1, i32* %4, align 16
  %5 = getelementptr inbounds [10 x i32], [10 x i32]* %2, i64 0, i64 1
  store i32 2, i32* %5, align 4
  %6 = getelementptr inbounds [10 x i32], [10 x i32]* %2, i64 0, i64 2
  store i32 3, i32* %6, align 8
  %7 = srem i32 %0, 10
  %8 = sext i32 %7 to i64
  %9 = getelementptr inbounds [10 x i32], [10 x i32]* %2, i64 0, i64 %8
  store i32 %0, i32* %9, align 4, !tbaa !17
  %10 = load i32, i32* %4, align 16, !tbaa !17
  %11 = load i32, i32* %5, align 4, !tbaa !17
  %12 = bitcast i32* %6 to <8 x i32>*
  %13 = load <8 x i32>, <8 x i32>* %12, align 8, !tbaa !17
  %14 = call i32 @llvm.vector.reduce.add.v8i32(<8 x i32> %13)
  %15 = add nsw i32 %14, %11
  %16 = add nsw i32 %15, %10
  call void @llvm.lifetime.end.p0i8(i64 40, i8* nonnull %3) #14
  ret i32 %16
}

define dso_local i32 @m_vla(i32 noundef %0) local_unnamed_addr #10 {
  %2 = zext i32 %0 to i64
  %3 = alloca i32, i64 %2, align 16
  %4 = icmp sgt i32 %0, 0
  br i1 %4, label %5, label %56

5:                                                ; preds = %1
  %6 = icmp ult i32 %0, 8
  br i1 %6, label %54, label %7

7:                                                ; preds = %5
  %8 = and i64 %2, 4294967288
  %9 = add nsw i64 %8, -8
  %10 = lshr exact i64 %9, 3
  %11 = add nuw nsw i64 %10, 1
  %12 = and i64 %11, 1
  %13 = icmp eq i64 %9, 0
  br i1 %13, label %40, label %14

14:                                               ; preds = %7
  %15 = and i64 %11, 4611686018427387902
  br label %16

16:                                               ; preds = %16, %14
  %17 = phi i64 [ 0, %14 ], [ %36, %16 ]
  %18 = phi <4 x i32> [ <i32 0, i32 1, i32 2, i32 3>, %14 ], [ %37, %16 ]
  %19 = phi i64 [ 0, %14 ], [ %38, %16 ]
  %20 = add <4 x i32> %18, <i32 4, i32 4, i32 4, i32 4>
  %21 = mul nsw <4 x i32> %18, %18
  %22 = mul nsw <4 x i32> %20, %20
  %23 = getelementptr inbounds i32, i32* %3, i64 %17
  %24 = bitcast i32* %23 to <4 x i32>*
  store <4 x i32> %21, <4 x i32>* %24, align 16, !tbaa !17
  %25 = getelementptr inbounds i32, i32* %23, i64 4
  %26 = bitcast i32* %25 to <4 x i32>*
  store <4 x i32> %22, <4 x i32>* %26, align 16, !tbaa !17
  %27 = or i64 %17, 8
  %28 = add <4 x i32> %18, <i32 8, i32 8, i32 8, i32 8>
  %29 = add <4 x i32> %18, <i32 12, i32 12, i32 12, i32 12>
  %30 = mul nsw <4 x i32> %28, %28
  %31 = mul nsw <4 x i32> %29, %29
  %32 = getelementptr inbounds i32, i32* %3, i64 %27
  %33 = bitcast i32* %32 to <4 x i32>*
  store <4 x i32> %30, <4 x i32>* %33, align 16, !tbaa !17
  %34 = getelementptr inbounds i32, i32* %32, i64 4
  %35 = bitcast i32* %34 to <4 x i32>*
  store <4 x i32> %31, <4 x i32>* %35, align 16, !tbaa !17
  %36 = add nuw i64 %17, 16
  %37 = add <4 x i32> %18, <i32 16, i32 16, i32 16, i32 16>
  %38 = add i64 %19, 2
  %39 = icmp eq i64 %38, %15
  br i1 %39, label %40, label %16, !llvm.loop !27

40:                                               ; preds = %16, %7
  %41 = phi i64 [ 0, %7 ], [ %36, %16 ]
  %42 = phi <4 x i32> [ <i32 0, i32 1, i32 2, i32 3>, %7 ], [ %37, %16 ]
  %43 = icmp eq i64 %12, 0
  br i1 %43, label %52, label %44

44:                                               ; preds = %40
  %45 = add <4 x i32> %42, <i32 4, i32 4, i32 4, i32 4>
  %46 = mul nsw <4 x i32> %42, %42
  %47 = mul nsw <4 x i32> %45, %45
  %48 = getelementptr inbounds i32, i32* %3, i64 %41
  %49 = bitcast i32* %48 to <4 x i32>*
  store <4 x i32> %46, <4 x i32>* %49, align 16, !tbaa !17
  %50 = getelementptr inbounds i32, i32* %48, i64 4
  %51 = bitcast i32* %50 to <4 x i32>*
  store <4 x i32> %47, <4 x i32>* %51, align 16, !tbaa !17
  br label %52

52:                                               ; preds = %40, %44
  %53 = icmp eq i64 %8, %2
  br i1 %53, label %56, label %54

54:                                               ; preds = %5, %52
  %55 = phi i64 [ 0, %5 ], [ %8, %52 ]
  br label %61

56:                                               ; preds = %61, %52, %1
  %57 = sdiv i32 %0, 2
  %58 = sext i32 %57 to i64
  %59 = getelementptr inbounds i32, i32* %3, i64 %58
  %60 = load i32, i32* %59, align 4, !tbaa !17
  ret i32 %60

61:                                               ; preds = %54, %61
  %62 = phi i64 [ %66, %61 ], [ %55, %54 ]
  %63 = trunc i64 %62 to i32
  %64 = mul nsw i32 %63, %63
  %65 = getelementptr inbounds i32, i32* %3, i64 %62
  store i32 %64, i32* %65, align 4, !tbaa !17
  %66 = add nuw nsw i64 %62, 1
  %67 = icmp eq i64 %66, %2
  br i1 %67, label %56, label %61, !llvm.loop !30
}

define dso_local i64 @m_strlen(i8* noundef %0) local_unnamed_addr #11 {
  br label %2

2:                                                ; preds = %2, %1
  %3 = phi i8* [ %0, %1 ], [ %6, %2 ]
  %4 = load i8, i8* %3, align 1, !tbaa !24
  %5 = icmp eq i8 %4, 0
  %6 = getelementptr inbounds i8, i8* %3, i64 1
  br i1 %5, label %7, label %2, !llvm.loop !32

7:                                                ; preds = %2
  %8 = ptrtoint i8* %3 to i64
  %9 = ptrtoint i8* %0 to i64
  %10 = sub i64 %8, %9
  ret i64 %10
}

define dso_local i8* @m_text() local_unnamed_addr #2 {
  ret i8* getelementptr inbounds ([9 x i8], [9 x i8]* @m_text.text, i64 0, i64 0)
}

define dso_local %struct.cue* @m_list(%struct.cue* noundef readonly %0) local_unnamed_addr #11 {
  br label %2

2:                                                ; preds = %5, %1
  %3 = phi %struct.cue* [ %0, %1 ], [ %7, %5 ]
  %4 = icmp eq %struct.cue* %3, null
  br i1 %4, label %9, label %5

5:                                                ; preds = %2
  %6 = getelementptr inbounds %struct.cue, %struct.cue* %3, i64 0, i32 3
  %7 = load %struct.cue*, %struct.cue** %6, align 8, !tbaa !33
  %8 = icmp eq %struct.cue* %7, null
  br i1 %8, label %9, label %2, !llvm.loop !34

9:                                                ; preds = %2, %5
  ret %struct.cue* %3
}

define dso_local i32 @m_sum(%struct.cue* noundef readonly %0) local_unnamed_addr #11 {
  %2 = icmp eq %struct.cue* %0, null
  br i1 %2, label %12, label %3

3:                                                ; preds = %1, %3
  %4 = phi i32 [ %8, %3 ], [ 0, %1 ]
  %5 = phi %struct.cue* [ %10, %3 ], [ %0, %1 ]
  %6 = getelementptr inbounds %struct.cue, %struct.cue* %5, i64 0, i32 1, i32 0
  %7 = load i32, i32* %6, align 8, !tbaa !16
  %8 = add nsw i32 %7, %4
  %9 = getelementptr inbounds %struct.cue, %struct.cue* %5, i64 0, i32 3
  %10 = load %struct.cue*, %struct.cue** %9, align 8, !tbaa !33
  %11 = icmp eq %struct.cue* %10, null
  br i1 %11, label %12, label %3, !llvm.loop !35

12:                                               ; preds = %3, %1
  %13 = phi i32 [ 0, %1 ], [ %8, %3 ]
  ret i32 %13
}

define dso_local i64 @m_difference(i32* noundef %0, i32* noundef %1) local_unnamed_addr #2 {
  %3 = ptrtoint i32* %0 to i64
  %4 = ptrtoint i32* %1 to i64
  %5 = sub i64 %3, %4
  %6 = ashr exact i64 %5, 2
  ret i64 %6
}

define dso_local i32 @m_volatile(i32* noundef %0) local_unnamed_addr #12 {
  store volatile i32 3, i32* %0, align 4, !tbaa !17
  %2 = load volatile i32, i32* %0, align 4, !tbaa !17
  %3 = load volatile i32, i32* %0, align 4, !tbaa !17
  %4 = add nsw i32 %3, %2
  ret i32 %4
}

define dso_local void @m_swap(i32* noalias nocapture noundef %0, i32* noalias nocapture noundef %1) local_unnamed_addr #5 {
  %3 = load i32, i32* %0, align 4, !tbaa !17
  %4 = load i32, i32* %1, align 4, !tbaa !17
  store i32 %4, i32* %0, align 4, !tbaa !17
  store i32 %3, i32* %1, align 4, !tbaa !17
  ret void
}

define dso_local i32 @m_aligned(i32 noundef %0) local_unnamed_addr #0 {
  %2 = sext i32 %0 to i64
  %3 = getelementptr inbounds [16 x i32], [16 x i32]* @aligned, i64 0, i64 %2
  %4 = load i32, i32* %3, align 4, !tbaa !17
  ret i32 %4
}

define dso_local signext i8 @n_add8(i8 noundef signext %0, i8 noundef signext %1) local_unnamed_addr #0 {
  %3 = add i8 %1, %0
  ret i8 %3
}

define dso_local zeroext i16 @n_mul16(i16 noundef zeroext %0, i16 noundef zeroext %1) local_unnamed_addr #0 {
  %3 = mul i16 %1, %0
  ret i16 %3
}

define dso_local i64 @n_div64(i64 noundef %0, i64 noundef %1) local_unnamed_addr #0 {
  %3 = sdiv i64 %0, %1
  ret i64 %3
}

define dso_local i64 @n_rem64(i64 noundef %0, i64 noundef %1) local_unnamed_addr #0 {
  %3 = urem i64 %0, %1
  ret i64 %3
}

define dso_local { i64, i64 } @n_wide(i64 noundef %0, i64 noundef %1, i64 noundef %2, i64 noundef %3) local_unnamed_addr #0 {
  %5 = zext i64 %1 to i128
  %6 = shl nuw i128 %5, 64
  %7 = zext i64 %0 to i128
  %8 = or i128 %6, %7
  %9 = zext i64 %3 to i128
  %10 = shl nuw i128 %9, 64
  %11 = zext i64 %2 to i128
  %12 = or i128 %10, %11
  %13 = mul nsw i128 %12, %8
  %14 = add nsw i128 %13, 1267650600228229401496703205376
  %15 = trunc i128 %14 to i64
  %16 = lshr i128 %14, 64
  %17 = trunc i128 %16 to i64
  %18 = insertvalue { i64, i64 } poison, i64 %15, 0
  %19 = insertvalue { i64, i64 } %18, i64 %17, 1
  ret { i64, i64 } %19
}

define dso_local { i64, i64 } @n_big() local_unnamed_addr #0 {
  ret { i64, i64 } { i64 42, i64 81985529216486895 }
}

define dso_local i32 @n_rotate(i32 noundef %0, i32 noundef %1) local_unnamed_addr #1 {
  %3 = tail call i32 @llvm.fshl.i32(i32 %0, i32 %0, i32 %1)
  ret i32 %3
}

define dso_local i32 @n_shift(i32 noundef %0, i32 noundef %1) local_unnamed_addr #0 {
  %3 = ashr i32 %0, %1
  %4 = lshr i32 %0, %1
  %5 = shl i32 %0, 3
  %6 = add i32 %4, %5
  %7 = add i32 %6, %3
  ret i32 %7
}

define dso_local i32 @n_bits(i32 noundef %0, i32 noundef %1) local_unnamed_addr #0 {
  %3 = xor i32 %0, %1
  %4 = xor i32 %3, -1
  ret i32 %4
}

define dso_local i32 @n_narrow(i64 noundef %0) local_unnamed_addr #0 {
  %2 = trunc i64 %0 to i32
  %3 = shl i32 %2, 24
  %4 = ashr exact i32 %3, 24
  %5 = shl i32 %2, 16
  %6 = ashr exact i32 %5, 16
  %7 = add i32 %6, %2
  %8 = add i32 %7, %4
  ret i32 %8
}

define dso_local i64 @n_widen(i8 noundef signext %0, i8 noundef zeroext %1, i16 noundef signext %2) local_unnamed_addr #0 {
  %4 = sext i8 %0 to i64
  %5 = zext i8 %1 to i64
  %6 = add nsw i64 %5, %4
  %7 = sext i16 %2 to i64
  %8 = add nsw i64 %6, %7
  ret i64 %8
}

define dso_local zeroext i1 @n_bool(i32 noundef %0, i32 noundef %1) local_unnamed_addr #0 {
  %3 = icmp slt i32 %0, %1
  %4 = icmp ne i32 %1, 3
  %5 = and i1 %3, %4
  ret i1 %5
}

define dso_local float @f_mix(float noundef %0, float noundef %1, float noundef %2) local_unnamed_addr #1 {
  %4 = fsub float %1, %0
  %5 = tail call float @llvm.fmuladd.f32(float %4, float %2, float %0)
  ret float %5
}

define dso_local double @f_poly(double noundef %0) local_unnamed_addr #1 {
  %2 = tail call double @llvm.fmuladd.f64(double %0, double 1.500000e+00, double -1.000000e-01)
  %3 = tail call double @llvm.fmuladd.f64(double %2, double %0, double 3.250000e+00)
  %4 = tail call double @llvm.fmuladd.f64(double %3, double %0, double -1.000000e-03)
  ret double %4
}

define dso_local double @f_div(double noundef %0, double noundef %1) local_unnamed_addr #0 {
  %3 = fdiv double %0, %1
  ret double %3
}

define dso_local float @f_neg(float noundef %0) local_unnamed_addr #0 {
  %2 = fneg float %0
  ret float %2
}

define dso_local double @f_ext(float noundef %0) local_unnamed_addr #0 {
  %2 = fpext float %0 to double
  %3 = fmul double %2, 2.000000e+00
  ret double %3
}

define dso_local float @f_trunc(double noundef %0) local_unnamed_addr #0 {
  %2 = fdiv double %0, 3.000000e+00
  %3 = fptrunc double %2 to float
  ret float %3
}

define dso_local i32 @f_int(double noundef %0) local_unnamed_addr #0 {
  %2 = fptosi double %0 to i32
  ret i32 %2
}

define dso_local i32 @f_uint(float noundef %0) local_unnamed_addr #0 {
  %2 = fptoui float %0 to i32
  ret i32 %2
}

define dso_local float @f_from(i32 noundef %0) local_unnamed_addr #0 {
  %2 = sitofp i32 %0 to float
  ret float %2
}

define dso_local double @f_fromu(i64 noundef %0) local_unnamed_addr #0 {
  %2 = uitofp i64 %0 to double
  ret double %2
}

define dso_local i32 @f_compare(double noundef %0, double noundef %1) local_unnamed_addr #0 {
  %3 = fcmp olt double %0, %1
  %4 = zext i1 %3 to i32
  %5 = fcmp ole double %0, %1
  %6 = select i1 %5, i32 2, i32 0
  %7 = or i32 %6, %4
  %8 = fcmp oeq double %0, %1
  %9 = select i1 %8, i32 4, i32 0
  %10 = or i32 %7, %9
  %11 = fcmp une double %0, %1
  %12 = select i1 %11, i32 8, i32 0
  %13 = or i32 %10, %12
  %14 = fcmp ogt double %0, %1
  %15 = select i1 %14, i32 16, i32 0
  %16 = or i32 %13, %15
  ret i32 %16
}

define dso_local i32 @f_unordered(float noundef %0, float noundef %1) local_unnamed_addr #0 {
  %3 = fcmp uge float %0, %1
  %4 = zext i1 %3 to i32
  %5 = fcmp ult float %0, %1
  %6 = select i1 %5, i32 2, i32 0
  %7 = or i32 %6, %4
  %8 = fcmp uno float %0, %1
  %9 = select i1 %8, i32 4, i32 0
  %10 = or i32 %7, %9
  ret i32 %10
}

define dso_local double @f_max(double noundef %0, double noundef %1) local_unnamed_addr #0 {
  %3 = fcmp ogt double %0, %1
  %4 = select i1 %3, double %0, double %1
  ret double %4
}

define dso_local float @f_infinite(i32 noundef %0) local_unnamed_addr #0 {
  %2 = icmp eq i32 %0, 0
  %3 = select i1 %2, float 0xFFF0000000000000, float 0x7FF0000000000000
  ret float %3
}

define dso_local double @f_nan() local_unnamed_addr #0 {
  ret double 0x7FF8000000000000
}

define dso_local float @f_third(float noundef %0) local_unnamed_addr #0 {
  %2 = fadd float %0, 0x3FD5555560000000
  ret float %2
}

define dso_local double @f_sum(double* nocapture noundef readonly %0, i32 noundef %1) local_unnamed_addr #3 {
  %3 = icmp sgt i32 %1, 0
  br i1 %3, label %4, label %26

4:                                                ; preds = %2
  %5 = zext i32 %1 to i64
  %6 = add nsw i64 %5, -1
  %7 = and i64 %5, 7
  %8 = icmp ult i64 %6, 7
  br i1 %8, label %11, label %9

9:                                                ; preds = %4
  %10 = and i64 %5, 4294967288
  br label %28

11:                                               ; preds = %28, %4
  %12 = phi double [ undef, %4 ], [ %62, %28 ]
  %13 = phi i64 [ 0, %4 ], [ %63, %28 ]
  %14 = phi double [ 0.000000e+00, %4 ], [ %62, %28 ]
  %15 = icmp eq i64 %7, 0
  br i1 %15, label %26, label %16

16:                                               ; preds = %11, %16
  %17 = phi i64 [ %23, %16 ], [ %13, %11 ]
  %18 = phi double [ %22, %16 ], [ %14, %11 ]
  %19 = phi i64 [ %24, %16 ], [ 0, %11 ]
  %20 = getelementptr inbounds double, double* %0, i64 %17
  %21 = load double, double* %20, align 8, !tbaa !5
  %22 = fadd double %18, %21
  %23 = add nuw nsw i64 %17, 1
  %24 = add i64 %19, 1
  %25 = icmp eq i64 %24, %7
  br i1 %25, label %26, label %16, !llvm.loop !9

26:                                               ; preds = %11, %16, %2
  %27 = phi double [ 0.000000e+00, %2 ], [ %12, %11 ], [ %22, %16 ]
  ret double %27

28:                                               ; preds = %28, %9
  %29 = phi i64 [ 0, %9 ], [ %63, %28 ]
  %30 = phi double [ 0.000000e+00, %9 ], [ %62, %28 ]
  %31 = phi i64 [ 0, %9 ], [ %64, %28 ]
  %32 = getelementptr inbounds double, double* %0, i64 %29
  %33 = load double, double* %32, align 8, !tbaa !5
  %34 = fadd double %30, %33
  %35 = or i64 %29, 1
  %36 = getelementptr inbounds double, double* %0, i64 %35
  %37 = load double, double* %36, align 8, !tbaa !5
  %38 = fadd double %34, %37
  %39 = or i64 %29, 2
  %40 = getelementptr inbounds double, double* %0, i64 %39
  %41 = load double, double* %40, align 8, !tbaa !5
  %42 = fadd double %38, %41
  %43 = or i64 %29, 3
  %44 = getelementptr inbounds double, double* %0, i64 %43
  %45 = load double, double* %44, align 8, !tbaa !5
  %46 = fadd double %42, %45
  %47 = or i64 %29, 4
  %48 = getelementptr inbounds double, double* %0, i64 %47
  %49 = load double, double* %48, align 8, !tbaa !5
  %50 = fadd double %46, %49
  %51 = or i64 %29, 5
  %52 = getelementptr inbounds double, double* %0, i64 %51
  %53 = load double, double* %52, align 8, !tbaa !5
  %54 = fadd double %50, %53
  %55 = or i64 %29, 6
  %56 = getelementptr inbounds double, double* %0, i64 %55
  %57 = load double, double* %56, align 8, !tbaa !5
  %58 = fadd double %54, %57
  %59 = or i64 %29, 7
  %60 = getelementptr inbounds double, double* %0, i64 %59
  %61 = load double, double* %60, align 8, !tbaa !5
  %62 = fadd double %58, %61
  %63 = add nuw nsw i64 %29, 8
  %64 = add i64 %31, 8
  %65 = icmp eq i64 %64, %10
  br i1 %65, label %11, label %28, !llvm.loop !11
}

define dso_local float @f_rem(float noundef %0, float noundef %1) local_unnamed_addr #4 {
  %3 = tail call float @fmodf(float noundef %0, float noundef %1) #7
  ret float %3
}

