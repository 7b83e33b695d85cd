.class public A
.super java/lang/Object
.method public static main([Ljava/lang/String;)V
new java/lang/Thread
dup
invokespecial java/lang/Thread/<init>()V
dup
invokevirtual java/lang/Thread/start()V
invokevirtual java/lang/Thread/start()V
return
.end method
