; Prints 5 down to 1. There is no static here, so the only events are the prints and the thread's end.
.class public Countdown
.super java/lang/Object
.method public static main([Ljava/lang/String;)V
iconst_5
istore_1
Next:
getstatic java/lang/System/out Ljava/io/PrintStream;
iload_1
invokevirtual java/io/PrintStream/println(I)V
iinc 1 -1
iload_1
ifgt Next
return
.end method
