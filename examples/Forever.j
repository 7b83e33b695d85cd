; A loop that never ends and does nothing else. A thread that runs alone for 4,096 instructions makes an event of its own, a
; tick, so that each run comes to an end: this one ends spent, when all 1,048,576 events are made.
.class public Forever
.super java/lang/Object
.method public static main([Ljava/lang/String;)V
Loop:
goto Loop
.end method
