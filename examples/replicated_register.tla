\* A register that is kept by several replicas. The writer sends each version to all replicas and goes on when a majority has
\* answered; the reader asks all replicas and takes the newest version of a majority.
\*
\* NumReplicas: how many replicas there are. NumRounds: how often the writer writes, and how often the reader reads. BUFFER_SIZE:
\* how many messages a mailbox holds; NumReplicas * NumRounds or more, since a client that still sends takes no answers.
\*
\* Look at `complete`, a global that no message carries: it has the last version that a majority has answered. The reader notes it
\* before it asks, and asserts that what it reads is no older, since two majorities have a replica in common. Answers to earlier
\* requests are dropped by their round, and those that come late are taken at the end.
\*
\*     ./pgo run --attempts 100000 NumReplicas=3 NumRounds=2 BUFFER_SIZE=6 < examples/replicated_register.tla

---- MODULE ReplicatedRegister ----
EXTENDS Integers, Sequences
CONSTANTS NumReplicas, NumRounds, BUFFER_SIZE
(*
--mpcal ReplicatedRegister {
  define {
    WriterID == 0
    ReplicaSet == 1..NumReplicas
    ReaderID == NumReplicas + 1
    Majority == NumReplicas \div 2 + 1
    Answers == NumReplicas * NumRounds
  }

  mapping macro ReliableFIFOLink {
    read { await Len($variable) > 0;
           with (first = Head($variable)) { $variable := Tail($variable); yield first; }; }
    write { await Len($variable) < BUFFER_SIZE; yield Append($variable, $value); }
  }

  archetype AReplica(ref net[_]) variables version = 0, served = 0, msg; {
    serve: while (served < 2 * NumRounds) {
      msg := net[self];
      served := served + 1;
      if (msg.type = "store") { version := msg.round; };
    answer:
      net[msg.from] := [round |-> msg.round, version |-> version];
    };
  }

  archetype AWriter(ref net[_], ref complete) variables round = 1, to, stored, heard = 0; {
    begin: while (round =< NumRounds) {
      to := 1;
      stored := 0;
    send: while (to =< NumReplicas) {
        net[to] := [from |-> self, type |-> "store", round |-> round];
        to := to + 1;
      };
    collect: while (stored < Majority) {
        heard := heard + 1;
        with (reply = net[self]) {
          if (reply.round = round) { stored := stored + 1; };
        };
      };
      complete := round;
      round := round + 1;
    };
    finish: while (heard < Answers) {
      heard := heard + 1;
      with (late = net[self]) { skip; };
    };
  }

  archetype AReader(ref net[_], ref complete) variables round = 1, to, replies, newest, least, heard = 0; {
    begin: while (round =< NumRounds) {
      to := 1;
      replies := 0;
      newest := 0;
      least := complete;
    send: while (to =< NumReplicas) {
        net[to] := [from |-> self, type |-> "load", round |-> round];
        to := to + 1;
      };
    collect: while (replies < Majority) {
        heard := heard + 1;
        with (reply = net[self]) {
          if (reply.round = round) {
            replies := replies + 1;
            newest := IF reply.version > newest THEN reply.version ELSE newest;
          };
        };
      };
      assert newest >= least;
      round := round + 1;
    };
    finish: while (heard < Answers) {
      heard := heard + 1;
      with (late = net[self]) { skip; };
    };
  }

  variables net = [i \in WriterID..ReaderID |-> <<>>], complete = 0;

  fair process (Writer = WriterID) == instance AWriter(ref net[_], ref complete)
    mapping net[_] via ReliableFIFOLink;

  fair process (Replica \in ReplicaSet) == instance AReplica(ref net[_])
    mapping net[_] via ReliableFIFOLink;

  fair process (Reader = ReaderID) == instance AReader(ref net[_], ref complete)
    mapping net[_] via ReliableFIFOLink;
}
*)
====
