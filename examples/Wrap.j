; Ints have 32 bits and wrap: the greatest one plus 1 is the least one, and the negative of the least one is itself.
.class public Wrap
.super java/lang/Object
.method public static main([Ljava/lang/String;)V
getstatic java/lang/System/out Ljava/io/PrintStream;
ldc 2147483647
iconst_1
iadd
invokevirtual java/io/PrintStream/println(I)V
getstatic java/lang/System/out Ljava/io/PrintStream;
ldc -2147483648
ineg
invokevirtual java/io/PrintStream/println(I)V
return
.end method
