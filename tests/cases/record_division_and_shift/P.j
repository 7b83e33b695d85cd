; The least int divided by -1 is itself, and a shift counts by its low five bits.
.class public A
.super java/lang/Object
.method public static main([Ljava/lang/String;)V
getstatic java/lang/System/out Ljava/io/PrintStream;
ldc -2147483648
iconst_m1
idiv
invokevirtual java/io/PrintStream/println(I)V
getstatic java/lang/System/out Ljava/io/PrintStream;
iconst_1
bipush 33
ishl
invokevirtual java/io/PrintStream/println(I)V
return
.end method
