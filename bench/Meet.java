import java.util.ArrayList;
import java.util.List;
import java.util.concurrent.CyclicBarrier;
import java.util.concurrent.Phaser;

/**
 * Threads that meet at a Phaser or a CyclicBarrier: Meet phaser WIDTHS THREADS PHASES, or Meet barrier THREADS PHASES. By Meet
 * groups WIDTHS THREADS MEMBERS PHASES each thread stands for so many members. It prints how many nanoseconds the second of two
 * equal runs took, so that the first has what is compiled while it runs.
 */
final class Meet {
    interface Turn {
        void take() throws Exception;
    }

    /** The leaves of a tree of these widths from the root. */
    static List<Phaser> leaves(String widths) {
        List<Phaser> row = new ArrayList<>(List.of(new Phaser()));
        if (widths.equals("flat")) {
            return row;
        }
        for (String width : widths.split("x")) {
            List<Phaser> below = new ArrayList<>();
            for (Phaser parent : row) {
                for (int i = 0; i < Integer.parseInt(width); i++) {
                    below.add(new Phaser(parent));
                }
            }
            row = below;
        }
        return row;
    }

    /** How long threads take that each take so many turns. */
    static long timed(List<Turn> turns, int phases) throws Exception {
        List<Thread> threads = new ArrayList<>();
        long start = System.nanoTime();
        for (Turn turn : turns) {
            Thread thread = new Thread(() -> {
                try {
                    for (int i = 0; i < phases; i++) {
                        turn.take();
                    }
                } catch (Exception fault) {
                    System.exit(1);
                }
            });
            threads.add(thread);
            thread.start();
        }
        for (Thread thread : threads) {
            thread.join();
        }
        return System.nanoTime() - start;
    }

    static List<Turn> turns(String[] words, int count) {
        List<Turn> turns = new ArrayList<>();
        if (words[0].equals("barrier")) {
            CyclicBarrier barrier = new CyclicBarrier(count);
            for (int i = 0; i < count; i++) {
                turns.add(barrier::await);
            }
            return turns;
        }
        int members = words[0].equals("groups") ? Integer.parseInt(words[3]) : 1;
        List<Phaser> leaves = leaves(words[1]);
        for (int i = 0; i < count; i++) {
            Phaser leaf = leaves.get(i % leaves.size());
            leaf.bulkRegister(members);
            turns.add(members == 1 ? leaf::arriveAndAwaitAdvance : () -> arriveAll(leaf, members));
        }
        return turns;
    }

    /** One thread lets so many members arrive, one after another, and waits with the last. */
    static void arriveAll(Phaser leaf, int members) {
        for (int i = 1; i < members; i++) {
            leaf.arrive();
        }
        leaf.arriveAndAwaitAdvance();
    }

    public static void main(String[] words) throws Exception {
        int count = Integer.parseInt(words[words[0].equals("groups") ? 2 : words.length - 2]);
        int phases = Integer.parseInt(words[words.length - 1]);
        List<Turn> turns = turns(words, count);
        timed(turns, phases);
        System.out.println(timed(turns, phases));
    }
}
