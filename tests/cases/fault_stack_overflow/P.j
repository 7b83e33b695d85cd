.class public A
.super java/lang/Object
.method public static main([Ljava/lang/String;)V
invokestatic A/f()V
return
.end method
.method static f()V
invokestatic A/f()V
return
.end method
