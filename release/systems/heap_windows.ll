; Allocation, which compiled Rattle programs call, for Windows: 1 and the bytes are returned, or 0 and any address. It is
; in LLVM's language, since compilers of C for Windows return such a pair in another way than LLVM does. An argument that
; says to what the bytes are aligned is not used: malloc aligns to 16.
@nothing = internal global i8 0

declare ptr @malloc(i64)
declare ptr @realloc(ptr, i64)
declare void @free(ptr)

define internal { i64, i64 } @allocation(ptr %bytes) alwaysinline {
  %is_allocated = icmp ne ptr %bytes, null
  %flag = zext i1 %is_allocated to i64
  %address = select i1 %is_allocated, ptr %bytes, ptr @nothing
  %number = ptrtoint ptr %address to i64
  %first = insertvalue { i64, i64 } poison, i64 %flag, 0
  %made = insertvalue { i64, i64 } %first, i64 %number, 1
  ret { i64, i64 } %made
}

; realloc(bytes, 0) would free them
define internal i64 @at_least_one(i64 %size) alwaysinline {
  %is_empty = icmp eq i64 %size, 0
  %positive = select i1 %is_empty, i64 1, i64 %size
  ret i64 %positive
}

define { i64, i64 } @rattle_alloc(i64 %size, i64 %align) {
  %positive = call i64 @at_least_one(i64 %size)
  %bytes = call ptr @malloc(i64 %positive)
  %made = call { i64, i64 } @allocation(ptr %bytes)
  ret { i64, i64 } %made
}

define { i64, i64 } @rattle_realloc(ptr %old, i64 %old_size, i64 %size, i64 %align) {
  %positive = call i64 @at_least_one(i64 %size)
  %bytes = call ptr @realloc(ptr %old, i64 %positive)
  %made = call { i64, i64 } @allocation(ptr %bytes)
  ret { i64, i64 } %made
}

define void @rattle_dealloc(ptr %bytes) {
  call void @free(ptr %bytes)
  ret void
}
