\* Several producers and one consumer, with one queue of bounded length between them.
\*
\* NumProducers: how many producers there are. NumItems: how many items each of them makes. BUFFER_SIZE: how many items the queue
\* holds, 1 or more.
\*
\* Look at the queue, a global that is mapped as a whole, without `[_]`: who reads it takes its head, and waits where it is empty,
\* who writes it puts an item behind the others, and waits where it is full. The consumer asserts that the items of each producer
\* come in their order, none twice and none left out.
\*
\*     ./pgo run --attempts 100000 NumProducers=3 NumItems=2 BUFFER_SIZE=2 < examples/producers_consumer.tla

---- MODULE ProducersConsumer ----
EXTENDS Integers, Sequences
CONSTANTS NumProducers, NumItems, BUFFER_SIZE
(*
--mpcal ProducersConsumer {
  define { ConsumerID == 0  ProducerSet == 1..NumProducers }

  mapping macro BoundedFIFO {
    read { await Len($variable) > 0;
           with (first = Head($variable)) { $variable := Tail($variable); yield first; }; }
    write { await Len($variable) < BUFFER_SIZE; yield Append($variable, $value); }
  }

  archetype AProducer(ref queue, limit) variables made = 0; {
    produce: while (made < limit) {
      made := made + 1;
      queue := [from |-> self, number |-> made];
    };
  }

  archetype AConsumer(ref queue)
  variables seen = [p \in ProducerSet |-> 0], taken = 0, item; {
    consume: while (taken < NumProducers * NumItems) {
      item := queue;
      taken := taken + 1;
    check:
      assert item.number = seen[item.from] + 1;
      seen[item.from] := item.number;
    };
    assert \A p \in ProducerSet : seen[p] = NumItems;
  }

  variables queue = <<>>;

  fair process (Consumer = ConsumerID) == instance AConsumer(ref queue)
    mapping queue via BoundedFIFO;

  fair process (Producer \in ProducerSet) == instance AProducer(ref queue, NumItems)
    mapping queue via BoundedFIFO;
}
*)
====
