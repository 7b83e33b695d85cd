; At label M the stack has two ints on one way and none on the other, so the fault stands at the place of M.
.class public A
.super java/lang/Object
.method public static main([Ljava/lang/String;)V
iconst_0
ifeq L
iconst_1
iconst_2
goto M
M: pop
return
L: goto M
.end method
