; The sum of the numbers 1 to 10, kept in a static field. Each pass reads the field and writes it: two events. The other
; instructions touch the thread alone and are no events. Look at the count: ten times two events, one read more for the print,
; the print itself, and the thread's end.
.class public Sum
.super java/lang/Object
.field static s I
.method public static main([Ljava/lang/String;)V
.limit stack 2
.limit locals 2
iconst_1
istore_1
Loop:
getstatic Sum/s I
iload_1
iadd
putstatic Sum/s I
iinc 1 1
iload_1
bipush 10
if_icmple Loop
getstatic java/lang/System/out Ljava/io/PrintStream;
getstatic Sum/s I
invokevirtual java/io/PrintStream/println(I)V
return
.end method
