\* The lock server of lock_server.tla, with one line at another place: the server looks at the length of its mailbox in the
\* section that takes a message from it, not in the next one.
\*
\* NumClients: how many clients there are. BUFFER_SIZE: how many messages a mailbox holds, 1 or more.
\*
\* Look at the sections: each of them needs at most one mailbox. In lock_server.tla `handle` needs two, those of the server and of
\* a client, and in rounds of turns it is refused the second one again and again. Here a section that is refused holds nothing, and
\* tries again.
\*
\*     ./pgo run --attempts 100000 NumClients=4 BUFFER_SIZE=3 < examples/lock_server_one_mailbox.tla

---- MODULE LockServerOneMailbox ----
EXTENDS Naturals, Sequences, TLC
CONSTANTS NumClients, BUFFER_SIZE
(*
--mpcal LockServerOneMailbox {
  define { ServerID == 0  ClientSet == 1..NumClients  NodeSet == 0..NumClients }

  mapping macro ReliableFIFOLink {
    read { await Len($variable) > 0;
           with (msg = Head($variable)) { $variable := Tail($variable); yield msg; }; }
    write { await Len($variable) < BUFFER_SIZE; yield Append($variable, $value); }
  }

  mapping macro QueueLen { read { yield Len($variable); } write { yield $variable; } }

  archetype AServer(ref net[_], ref backlog[_])
  variables q = <<>>, count = 0, seen = 0, msg; {
    loop: while (count < 2 * NumClients) {
      msg := net[self]; count := count + 1;
      seen := backlog[self];
    handle:
      if (msg.type = "lock") {
        q := Append(q, msg.from);
        if (Len(q) = 1) { net[msg.from] := [from |-> self, type |-> "grant"]; };
      } else {
        q := Tail(q);
        if (q # <<>>) { net[Head(q)] := [from |-> self, type |-> "grant"]; };
      };
    };
  }

  archetype AClient(ref net[_]) {
    req: net[ServerID] := [from |-> self, type |-> "lock"];
    crit: with (m = net[self]) { assert m.type = "grant"; };
    rel: net[ServerID] := [from |-> self, type |-> "unlock"];
  }

  variables net = [i \in NodeSet |-> <<>>];

  fair process (Server = ServerID) == instance AServer(ref net[_], ref net[_])
    mapping net[_] via ReliableFIFOLink mapping @2[_] via QueueLen;

  fair process (Client \in ClientSet) == instance AClient(ref net[_])
    mapping net[_] via ReliableFIFOLink;
}
*)
====
