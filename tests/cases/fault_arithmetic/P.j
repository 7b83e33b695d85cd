; What was printed before the fault stays printed.
.class public A
.super java/lang/Object
.method public static main([Ljava/lang/String;)V
getstatic java/lang/System/out Ljava/io/PrintStream;
bipush 7
invokevirtual java/io/PrintStream/println(I)V
iconst_1
iconst_0
irem
pop
return
.end method
