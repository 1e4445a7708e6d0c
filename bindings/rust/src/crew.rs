//! Threads that take rounds of work, a share each.
use std::sync::mpsc::{Receiver, Sender, channel};
use std::thread::Scope;

/// Threads that stay until this is dropped.
pub(crate) struct Crew<W> {
    shares: Vec<Sender<W>>,
    done: Receiver<()>,
}

impl<W: Send> Crew<W> {
    /// Starts so many threads, which do this with each share.
    pub(crate) fn start<'scope, 'env, F>(scope: &'scope Scope<'scope, 'env>, threads: usize, work: &'scope F) -> Crew<W>
    where
        W: 'scope,
        F: Fn(&mut W) + Sync,
    {
        let (says, done) = channel();
        let start = |_| {
            let (share, taken) = channel::<W>();
            let says = says.clone();
            scope.spawn(move || {
                while let Ok(mut share) = taken.recv() {
                    work(&mut share);
                    drop(share);
                    if says.send(()).is_err() {
                        return;
                    }
                }
            });
            share
        };
        Crew { shares: (0..threads).map(start).collect(), done }
    }

    /// Has a thread work on each share but the first, on which the caller works, and waits for all.
    pub(crate) fn round<F: Fn(&mut W)>(&self, shares: Vec<W>, work: &F) {
        let mut shares = shares.into_iter();
        let mut own = shares.next();
        let mut sent = 0;
        for (to, share) in self.shares.iter().zip(shares) {
            assert!(to.send(share).is_ok(), "a thread of the crew has ended");
            sent += 1;
        }
        own.iter_mut().for_each(work);
        for _ in 0..sent {
            assert!(self.done.recv().is_ok(), "a thread of the crew has ended");
        }
    }
}
