; Two threads each add 1 to a static: a read, then a write. Where both read before one of them writes, one addition is lost, and
; main throws an Error. The recording lets each thread go on until it can't, so all is well in it: look at its four intervals.
.class public W
.super java/lang/Thread
.field static n I
.method public <init>()V
aload_0
invokespecial java/lang/Thread/<init>()V
return
.end method
.method public run()V
getstatic W/n I
iconst_1
iadd
putstatic W/n I
return
.end method
.method public static main([Ljava/lang/String;)V
new W
dup
invokespecial W/<init>()V
astore_1
new W
dup
invokespecial W/<init>()V
astore_2
aload_1
invokevirtual W/start()V
aload_2
invokevirtual W/start()V
aload_1
invokevirtual W/join()V
aload_2
invokevirtual W/join()V
getstatic W/n I
iconst_2
if_icmpeq Good
new java/lang/Error
dup
invokespecial java/lang/Error/<init>()V
athrow
Good:
return
.end method
