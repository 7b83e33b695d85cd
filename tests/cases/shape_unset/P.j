.class public A
.super java/lang/Object
.method public static main([Ljava/lang/String;)V
iconst_0
ifeq L
iconst_1
istore_1
goto M
L: aconst_null
astore_1
M: iload_1
pop
return
.end method
