.class public A
.super java/lang/Object
.method public static main([Ljava/lang/String;)V
iadd
goto X
.end method
