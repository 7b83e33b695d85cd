; The settings are put in their static before their numbers are there. A reader that looks in between finds settings without
; numbers and meets null. A reader that comes too early finds no settings and goes home, and one that comes late reads them: so
; the fault lies between two events, and a switch before or after them does no harm. Isolating finds its last event.
.class public Settings
.super java/lang/Object
.field static current LSettings;
.field numbers [I
.method public <init>()V
aload_0
invokespecial java/lang/Object/<init>()V
return
.end method
.method public static main([Ljava/lang/String;)V
new Reader
dup
invokespecial Reader/<init>()V
astore_1
aload_1
invokevirtual Reader/start()V
new Settings
dup
invokespecial Settings/<init>()V
astore_2
aload_2
putstatic Settings/current LSettings;
aload_2
bipush 16
newarray int
putfield Settings/numbers [I
aload_1
invokevirtual Reader/join()V
return
.end method
.class Reader
.super java/lang/Thread
.method public <init>()V
aload_0
invokespecial java/lang/Thread/<init>()V
return
.end method
.method public run()V
getstatic Settings/current LSettings;
astore_1
aload_1
ifnull Out
getstatic java/lang/System/out Ljava/io/PrintStream;
aload_1
getfield Settings/numbers [I
arraylength
invokevirtual java/io/PrintStream/println(I)V
Out:
return
.end method
