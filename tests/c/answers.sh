# What the calls answer, and how much stack they need.
build sheet "$here/sheet.c" "$lib"
add "sheet of marked bitsets" sheet
build answers "$here/answers.c" "$lib"
add "whole reply, ACK, refusals" answers
build index_name "$here/index_name.c" "$lib"
add "index and name of a BIT" index_name
build stack -pthread "$here/stack.c" "$lib"
add "stack of the largest box" stack
build threads -pthread "$here/threads.c" "$lib"
add "threads that call at once" threads
