//! Debian's tokio 1.24 with the two calls that it lacks: `watch::Sender::new` and `watch::Receiver::mark_unchanged`.

pub use debian::*;

pub mod sync {
    pub use debian::sync::*;

    /// The calls of `watch` that are used, handed on; the two new ones are made of old ones.
    pub mod watch {
        use debian::sync::watch;
        pub use debian::sync::watch::{error, Ref};

        pub struct Sender<T>(watch::Sender<T>);

        pub struct Receiver<T>(watch::Receiver<T>);

        pub fn channel<T>(init: T) -> (Sender<T>, Receiver<T>) {
            let (sender, receiver) = watch::channel(init);
            (Sender(sender), Receiver(receiver))
        }

        impl<T> Sender<T> {
            pub fn new(init: T) -> Self {
                Sender(watch::channel(init).0)
            }

            pub fn send_modify(&self, modify: impl FnOnce(&mut T)) {
                self.0.send_modify(modify)
            }

            pub fn send_replace(&self, value: T) -> T {
                self.0.send_replace(value)
            }

            pub fn subscribe(&self) -> Receiver<T> {
                Receiver(self.0.subscribe())
            }
        }

        impl<T> Receiver<T> {
            pub async fn changed(&mut self) -> Result<(), error::RecvError> {
                self.0.changed().await
            }

            pub fn has_changed(&self) -> Result<bool, error::RecvError> {
                self.0.has_changed()
            }

            pub fn borrow(&self) -> Ref<'_, T> {
                self.0.borrow()
            }

            pub fn mark_unchanged(&mut self) {
                self.0.borrow_and_update();
            }
        }
    }
}
