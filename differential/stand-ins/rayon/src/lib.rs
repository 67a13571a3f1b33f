//! Stand-in for rayon: `scope`, with each task run where it is spawned.

pub struct Scope(());

impl Scope {
    pub fn spawn<F: FnOnce(&Scope)>(&self, task: F) {
        task(self)
    }
}

pub fn scope<R>(work: impl FnOnce(&Scope) -> R) -> R {
    work(&Scope(()))
}
