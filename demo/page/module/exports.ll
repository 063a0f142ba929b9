; What the page calls: the functions of session.rattle, by their symbols. tools/targets puts this behind LLVM's module of them.

; A session that waits for its boot line; null where there is no memory for one.
define ptr @page_begin() {
  %begun = call { i8, ptr } @"page::begin"()
  %refused = extractvalue { i8, ptr } %begun, 0
  %session = extractvalue { i8, ptr } %begun, 1
  %is_refused = icmp ne i8 %refused, 0
  %answer = select i1 %is_refused, ptr null, ptr %session
  ret ptr %answer
}

; Plays a line.
define void @page_play(ptr %session, ptr %line, i64 %bytes) {
  call void @"page::play"(ptr %session, ptr %line, i64 %bytes)
  ret void
}

; Where the answer to the last line is, and how many bytes that has.
define ptr @page_text(ptr %session) {
  %text = call { ptr, i64 } @"page::text"(ptr %session)
  %at = extractvalue { ptr, i64 } %text, 0
  ret ptr %at
}

define i64 @page_text_bytes(ptr %session) {
  %text = call { ptr, i64 } @"page::text"(ptr %session)
  %bytes = extractvalue { ptr, i64 } %text, 1
  ret i64 %bytes
}
