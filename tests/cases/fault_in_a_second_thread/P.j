.class public T
.super java/lang/Thread
.method public <init>()V
aload_0
invokespecial java/lang/Thread/<init>()V
return
.end method
.method public run()V
iconst_1
iconst_0
idiv
pop
return
.end method
.method public static main([Ljava/lang/String;)V
new T
dup
invokespecial T/<init>()V
dup
astore_1
invokevirtual T/start()V
aload_1
invokevirtual T/join()V
return
.end method
