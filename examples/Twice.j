; A wait with its lock entered twice. The wait gives up both entries, so the second thread gets the lock and notifies; then main
; has the lock again, entered twice, and leaves it twice. Look at the three intervals. Where the notify comes before the wait it
; is lost, and the run ends stuck.
.class public Twice
.super java/lang/Thread
.field static o Ljava/lang/Object;
.method public <init>()V
aload_0
invokespecial java/lang/Thread/<init>()V
return
.end method
.method public run()V
getstatic Twice/o Ljava/lang/Object;
astore_1
aload_1
monitorenter
aload_1
invokevirtual java/lang/Object/notify()V
aload_1
monitorexit
return
.end method
.method public static main([Ljava/lang/String;)V
new java/lang/Object
dup
invokespecial java/lang/Object/<init>()V
astore_1
aload_1
putstatic Twice/o Ljava/lang/Object;
new Twice
dup
invokespecial Twice/<init>()V
invokevirtual Twice/start()V
aload_1
monitorenter
aload_1
monitorenter
aload_1
invokevirtual java/lang/Object/wait()V
aload_1
monitorexit
aload_1
monitorexit
return
.end method
