; A gate that lets frames go too early: what it is given to hold it hands out as well. tools/targets renames the gate's own `hold` to this one's
; `as_it_should_be`, and puts this in its place.
define internal void @"output_gate::gate::Gate::hold"(ptr %gate, i64 %number, ptr %frames, i64 %count) {
  call void @as_it_should_be(ptr %gate, i64 %number, ptr %frames, i64 %count)
  call void @hand_out(ptr %frames, i64 %count)
  ret void
}

declare void @hand_out(ptr, i64)
