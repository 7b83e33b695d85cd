; Two threads enter the same two locks in opposite orders. One after the other they are done, as in the recording. Where each
; has entered its first lock, neither can enter its second one, main waits for both, and the run ends stuck.
.class public Cross
.super java/lang/Object
.field static a Ljava/lang/Object;
.field static b Ljava/lang/Object;
.method public static main([Ljava/lang/String;)V
new java/lang/Object
dup
invokespecial java/lang/Object/<init>()V
putstatic Cross/a Ljava/lang/Object;
new java/lang/Object
dup
invokespecial java/lang/Object/<init>()V
putstatic Cross/b Ljava/lang/Object;
new P
dup
invokespecial P/<init>()V
astore_1
new Q
dup
invokespecial Q/<init>()V
astore_2
aload_1
invokevirtual P/start()V
aload_2
invokevirtual Q/start()V
aload_1
invokevirtual P/join()V
aload_2
invokevirtual Q/join()V
return
.end method
.class P
.super java/lang/Thread
.method public <init>()V
aload_0
invokespecial java/lang/Thread/<init>()V
return
.end method
.method public run()V
getstatic Cross/a Ljava/lang/Object;
astore_1
aload_1
monitorenter
getstatic Cross/b Ljava/lang/Object;
astore_2
aload_2
monitorenter
aload_2
monitorexit
aload_1
monitorexit
return
.end method
.class Q
.super java/lang/Thread
.method public <init>()V
aload_0
invokespecial java/lang/Thread/<init>()V
return
.end method
.method public run()V
getstatic Cross/b Ljava/lang/Object;
astore_1
aload_1
monitorenter
getstatic Cross/a Ljava/lang/Object;
astore_2
aload_2
monitorenter
aload_2
monitorexit
aload_1
monitorexit
return
.end method
