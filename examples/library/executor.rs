//! A router under an executor by hand: two tasks share it, and a clock that jumps to the next moment for which one waits.
//! One lets time pass up to each timer of the router, the other has an interface go up at 1 s. Prints what leaves, and when.
use std::cell::{Cell, RefCell};
use std::future::Future;
use std::pin::Pin;
use std::sync::Arc;
use std::task::{Context, Poll, Wake};
use viqeshor::{message, Error, Interface, Router, Settings};

struct Idle;
impl Wake for Idle {
    fn wake(self: Arc<Self>) {}
}

struct Clock(Cell<u64>, Cell<u64>);

/// Is ready at a moment, in ms, which the clock is told as the next one.
struct Until<'a>(&'a Clock, u64);
impl Future for Until<'_> {
    type Output = ();
    fn poll(self: Pin<&mut Self>, _: &mut Context) -> Poll<()> {
        let Clock(now, next) = self.0;
        next.set(next.get().min(self.1.max(now.get())));
        if now.get() >= self.1 {
            Poll::Ready(())
        } else {
            Poll::Pending
        }
    }
}

async fn timers(clock: &Clock, router: &RefCell<Router>) {
    while clock.0.get() < 100_000 {
        let next = router.borrow().next_moment().unwrap_or(100_000);
        Until(clock, next.min(clock.0.get() + 500)).await;
        let now = clock.0.get();
        let sent = router.borrow_mut().run_to(now, || 7, |_, bytes| println!("{now} {}", message(bytes)));
        sent.expect("a router that works");
    }
}

async fn link(clock: &Clock, router: &RefCell<Router>) {
    Until(clock, 1000).await;
    router.borrow_mut().advance(1000, 7).expect("a router that works");
    router.borrow_mut().up(0, 7).expect("a router that works");
}

fn main() -> Result<(), Error> {
    let interface = Interface::at("10.0.0.1/24".parse().expect("a prefix"));
    let router = RefCell::new(Router::new(&Settings::default(), &[interface], &[], &[])?);
    let (clock, waker) = (Clock(Cell::new(0), Cell::new(0)), Arc::new(Idle).into());
    let mut tasks: Vec<Pin<Box<dyn Future<Output = ()> + '_>>> =
        vec![Box::pin(link(&clock, &router)), Box::pin(timers(&clock, &router))];
    while !tasks.is_empty() {
        clock.0.set(clock.1.replace(u64::MAX));
        tasks.retain_mut(|task| task.as_mut().poll(&mut Context::from_waker(&waker)).is_pending());
    }
    Ok(())
}
