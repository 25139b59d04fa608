; define void @comment() { is no function: only a line's start counts
@text = constant [9 x i8] c" define \00"
 define void @indented(){ret void}

define void @one_line(){ret void}
; é behind a function is not its fault
define i32 @label(i32 %n) {
  br label %define
define:
  ret i32 %n
}

defined: is no define, nor is
define.x
define i32 @no_value() {
	ret i32
}
define i32 @"two words"(i32 %n) {
  %m = add i32 %n, 1e
  ret i32 %m
}
define void @accent() { ; é inside
  ret void
}
define{i8,i8} @close(){
  ret {i8,i8} undef}
define void @wide(i8 %n, [0099999999999999999999 x i8]* %p) {
  ret void
}
define void @open() {
  ret void
