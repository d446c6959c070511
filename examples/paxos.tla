\* Paxos for one value. Proposers ask acceptors for promises under a ballot, propose a value under it where a majority has
\* promised, and decide where a majority has accepted. Who has decided asserts that nobody has decided on another value.
\*
\* NumProposers, NumAcceptors: how many there are. BUFFER_SIZE: how many messages a mailbox holds; with too few a proposer that
\* sends and an acceptor that answers can wait for one another.
\*
\* Look at the acceptors, which are servers: they never end, so no run ends with status 0. A run ends when each instance is at
\* Done or has made its attempts, 10,000 of them where `--attempts` says nothing else. Look at `best`, too: a proposer
\* proposes the value that was accepted under the greatest ballot that it hears of, and its own only where it hears of none. Each
\* section needs one mailbox: an acceptor takes a message in one and answers it in the next.
\*
\*     ./pgo run --attempts 30000 NumProposers=2 NumAcceptors=3 BUFFER_SIZE=12 < examples/paxos.tla

---- MODULE Paxos ----
EXTENDS Integers, Sequences, FiniteSets
CONSTANTS NumProposers, NumAcceptors, BUFFER_SIZE
(*
--mpcal Paxos {
  define {
    Proposers == 1..NumProposers
    Acceptors == (NumProposers + 1)..(NumProposers + NumAcceptors)
    IsMajority(nodes) == 2 * Cardinality(nodes) > NumAcceptors
  }

  mapping macro Mailbox {
    read { await Len($variable) > 0;
           with (msg = Head($variable)) { $variable := Tail($variable); yield msg; }; }
    write { await Len($variable) < BUFFER_SIZE; yield Append($variable, $value); }
  }

  archetype AProposer(ref net[_], ref chosen, own)
  variables ballot = self, todo = {}, heard = {}, best, msg; {
    prepare:
      todo := Acceptors || heard := {} || best := [ballot |-> 0, value |-> own];
    ask: while (todo # {}) {
      with (a \in todo) {
        net[a] := [type |-> "prepare", from |-> self, ballot |-> ballot];
        todo := todo \ {a};
      };
    };
    promises: while (~IsMajority(heard)) {
      msg := net[self];
      if (msg.ballot = ballot) {
        if (msg.type = "refused") {
          ballot := ballot + NumProposers;
          goto prepare;
        } else {
          heard := heard \cup {msg.from};
          if (msg.accepted.ballot > best.ballot) { best := msg.accepted; };
        };
      };
    };
    todo := Acceptors || heard := {};
    propose: while (todo # {}) {
      with (a \in todo) {
        net[a] := [type |-> "accept", from |-> self, ballot |-> ballot, value |-> best.value];
        todo := todo \ {a};
      };
    };
    answers: while (~IsMajority(heard)) {
      msg := net[self];
      if (msg.ballot = ballot /\ msg.type # "promised") {
        if (msg.type = "refused") {
          ballot := ballot + NumProposers;
          goto prepare;
        } else {
          heard := heard \cup {msg.from};
        };
      };
    };
    decide:
      assert chosen \subseteq {best.value};
      chosen := {best.value};
  }

  archetype AAcceptor(ref net[_])
  variables promised = 0, accepted = [ballot |-> 0, value |-> 0], msg; {
    receive: while (TRUE) {
      msg := net[self];
    answer:
      if (msg.ballot < promised) {
        net[msg.from] := [type |-> "refused", from |-> self, ballot |-> msg.ballot];
      } else {
        promised := msg.ballot;
        if (msg.type = "prepare") {
          net[msg.from] := [type |-> "promised", from |-> self, ballot |-> msg.ballot, accepted |-> accepted];
        } else {
          accepted := [ballot |-> msg.ballot, value |-> msg.value];
          net[msg.from] := [type |-> "accepted", from |-> self, ballot |-> msg.ballot];
        };
      };
    };
  }

  variables net = [i \in 1..(NumProposers + NumAcceptors) |-> <<>>], chosen = {};

  fair process (Proposer \in Proposers) == instance AProposer(ref net[_], ref chosen, self * 10)
    mapping net[_] via Mailbox;

  fair process (Acceptor \in Acceptors) == instance AAcceptor(ref net[_])
    mapping net[_] via Mailbox;
}
*)
====
