\* A sender and a receiver, with a channel of bounded length between them. A mapping macro says what it is to read from the
\* channel and to write to it, another one what it is to read how many messages are left in it.
\*
\*     ./pgo run --attempts 100000 CAPACITY=1 < examples/queue.tla
\*
\* runs it, each of both in a thread of its own. What stands above the line of MODULE is passed over.

---- MODULE Queue ----
EXTENDS Integers, Sequences
CONSTANTS CAPACITY
(*
--mpcal Queue {
  mapping macro Channel {
    read { await Len($variable) > 0;
           with (m = Head($variable)) { $variable := Tail($variable); yield m; }; }
    write { await Len($variable) < CAPACITY; yield Append($variable, $value); }
  }

  mapping macro Length { read { yield Len($variable); } write { yield $variable; } }

  archetype Sender(ref box[_], to) variables n = 0; {
    s: while (n < 3) { box[to] := [from |-> self, body |-> n]; n := n + 1; };
  }

  archetype Receiver(ref box[_], ref size[_]) variables sum = 0, last, left; {
    r: while (sum < 3) { last := box[self]; left := size[self]; sum := sum + last.body; };
  }

  variables boxes = [i \in 1..2 |-> <<>>];

  fair process (S = 1) == instance Sender(ref boxes[_], 2) mapping boxes[_] via Channel;

  fair process (R = 2) == instance Receiver(ref boxes[_], ref boxes[_])
    mapping boxes[_] via Channel mapping @2[_] via Length;
}
*)
====
