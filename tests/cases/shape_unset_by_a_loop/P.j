; The first pass of the loop is right. The jump back brings null for local 1, which is unset from then on.
.class public A
.super java/lang/Object
.method public static main([Ljava/lang/String;)V
iconst_1
istore_1
Loop: iload_1
pop
aconst_null
astore_1
goto Loop
.end method
