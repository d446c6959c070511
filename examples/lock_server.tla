\* A server that gives one lock to one client after another. Messages go through mailboxes of bounded length.
\*
\*     ./pgo run --attempts 100000 NumClients=4 BUFFER_SIZE=3 < examples/lock_server.tla
\*
\* runs it, each instance in a thread of its own. In rounds of turns, as `step` can make them, it never ends: docs/EXAMPLES.md says
\* why. What stands above the line of MODULE is passed over.

---- MODULE LockServer ----
EXTENDS Naturals, Sequences, TLC
CONSTANTS NumClients, BUFFER_SIZE
(*
--mpcal LockServer {
  define { ServerID == 0  ClientSet == 1..NumClients  NodeSet == 0..NumClients }

  mapping macro ReliableFIFOLink {
    read { await Len($variable) > 0;
           with (msg = Head($variable)) { $variable := Tail($variable); yield msg; }; }
    write { await Len($variable) < BUFFER_SIZE; yield Append($variable, $value); }
  }

  mapping macro QueueLen { read { yield Len($variable); } write { yield $variable; } }

  archetype AServer(ref net[_], ref backlog[_])
  variables q = <<>>, count = 0, seen = 0, msg; {
    loop: while (count < 2 * NumClients) {
      msg := net[self]; count := count + 1;
    handle:
      seen := backlog[self];
      if (msg.type = "lock") {
        q := Append(q, msg.from);
        if (Len(q) = 1) { net[msg.from] := [from |-> self, type |-> "grant"]; };
      } else {
        q := Tail(q);
        if (q # <<>>) { net[Head(q)] := [from |-> self, type |-> "grant"]; };
      };
    };
  }

  archetype AClient(ref net[_]) {
    req: net[ServerID] := [from |-> self, type |-> "lock"];
    crit: with (m = net[self]) { assert m.type = "grant"; };
    rel: net[ServerID] := [from |-> self, type |-> "unlock"];
  }

  variables net = [i \in NodeSet |-> <<>>];

  fair process (Server = ServerID) == instance AServer(ref net[_], ref net[_])
    mapping net[_] via ReliableFIFOLink mapping @2[_] via QueueLen;

  fair process (Client \in ClientSet) == instance AClient(ref net[_])
    mapping net[_] via ReliableFIFOLink;
}
*)
====
