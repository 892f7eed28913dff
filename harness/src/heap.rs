//! Shim: the counted heap. Entries are counted and freed as the published text expects; the
//! driver holds one reference on every object it makes, so only what nobody can name is freed.

use std::{
    cell::Cell,
    marker::PhantomData,
    ops::{Deref, DerefMut},
    rc::Rc,
    vec,
};

use monty_types::ResourceTracker;

use crate::{
    asyncio::{Awaiter, Coroutine, ExternalFuture, ExternalFutureState, GatherFuture, GatherState},
    types::List,
    value::Value,
};

#[derive(Debug, Clone, Copy, PartialEq, Eq, Hash, PartialOrd, Ord)]
pub(crate) struct HeapId(usize);

#[derive(Debug)]
pub(crate) enum HeapData {
    Coroutine(Coroutine),
    ExternalFuture(Box<ExternalFuture>),
    GatherFuture(GatherFuture),
    List(List),
}

#[derive(Debug)]
struct Entry {
    count: Cell<usize>,
    /// Live `HeapRead` handles; freeing under one panics, as in the original.
    readers: Rc<Cell<usize>>,
    data: Option<HeapData>,
}

#[derive(Debug, Default)]
pub(crate) struct Heap {
    entries: Vec<Entry>,
    pub tracker: ResourceTracker,
}

impl Heap {
    pub fn allocate(&mut self, data: HeapData) -> HeapId {
        self.entries.push(Entry {
            count: Cell::new(1),
            readers: Rc::new(Cell::new(0)),
            data: Some(data),
        });
        HeapId(self.entries.len() - 1)
    }

    pub fn data(&self, id: HeapId) -> &HeapData {
        self.entries[id.0].data.as_ref().expect("heap entry was freed")
    }

    fn data_mut(&mut self, id: HeapId) -> &mut HeapData {
        self.entries[id.0].data.as_mut().expect("heap entry was freed")
    }

    pub fn inc_ref(&self, id: HeapId) {
        let entry = &self.entries[id.0];
        assert!(entry.data.is_some(), "inc_ref of a freed heap entry");
        entry.count.set(entry.count.get() + 1);
    }

    pub fn dec_ref(&mut self, id: HeapId) {
        let entry = &mut self.entries[id.0];
        assert!(entry.data.is_some(), "dec_ref of a freed heap entry");
        entry.count.set(entry.count.get() - 1);
        if entry.count.get() == 0 {
            assert_eq!(entry.readers.get(), 0, "heap entry freed under a live reader");
            let data = entry.data.take().expect("heap entry was freed");
            for child in owned_refs(&data) {
                self.dec_ref(child);
            }
        }
    }
}

/// Every reference that an entry owns, as the published comments assign them.
fn owned_refs(data: &HeapData) -> Vec<HeapId> {
    fn value(out: &mut Vec<HeapId>, value: &Value) {
        if let Value::Ref(id) = value {
            out.push(*id);
        }
    }
    fn awaiter(out: &mut Vec<HeapId>, awaiter: &Awaiter) {
        if let Awaiter::GatherSlot { gather, .. } = awaiter {
            out.push(*gather);
        }
    }
    let mut out = Vec::new();
    match data {
        HeapData::Coroutine(coro) => {
            coro.namespace.iter().for_each(|v| value(&mut out, v));
            out.extend(coro.globals);
        }
        HeapData::ExternalFuture(fut) => {
            fut.sleep_result.iter().for_each(|v| value(&mut out, v));
            match &fut.state {
                ExternalFutureState::Pending { awaiter: a } => a.iter().for_each(|a| awaiter(&mut out, a)),
                ExternalFutureState::Resolved(v) => value(&mut out, v),
                ExternalFutureState::Failed(_) => {}
            }
        }
        HeapData::GatherFuture(gather) => {
            out.extend(&gather.items);
            match &gather.state {
                GatherState::Pending | GatherState::Failed(_) => {}
                GatherState::Awaited(awaited) => {
                    awaiter(&mut out, &awaited.awaiter);
                    awaited.results.iter().flatten().for_each(|v| value(&mut out, v));
                }
                GatherState::Completed(v) => value(&mut out, v),
            }
        }
        HeapData::List(list) => list.items().iter().for_each(|v| value(&mut out, v)),
    }
    out
}

/// The heap with a lifetime that its read handles carry.
#[derive(Debug, Default)]
pub(crate) struct HeapReader<'h> {
    heap: Heap,
    brand: PhantomData<&'h ()>,
}

impl Deref for HeapReader<'_> {
    type Target = Heap;
    fn deref(&self) -> &Heap {
        &self.heap
    }
}

impl DerefMut for HeapReader<'_> {
    fn deref_mut(&mut self) -> &mut Heap {
        &mut self.heap
    }
}

impl<'h> HeapReader<'h> {
    pub fn read(&self, id: HeapId) -> HeapReadOutput<'h> {
        match self.data(id) {
            HeapData::Coroutine(_) => HeapReadOutput::Coroutine(HeapRead::new(id, self)),
            HeapData::ExternalFuture(_) => HeapReadOutput::ExternalFuture(HeapRead::new(id, self)),
            HeapData::GatherFuture(_) => HeapReadOutput::GatherFuture(HeapRead::new(id, self)),
            HeapData::List(_) => HeapReadOutput::List,
        }
    }
}

pub(crate) enum HeapReadOutput<'h> {
    Coroutine(HeapObjectRead<'h, Coroutine>),
    ExternalFuture(HeapObjectRead<'h, ExternalFuture>),
    GatherFuture(HeapObjectRead<'h, GatherFuture>),
    List,
}

/// A handle on one entry that borrows the heap only while it is looked through. The original
/// has three layers; nothing here tells them apart.
pub(crate) struct HeapRead<'h, T> {
    id: HeapId,
    readers: Rc<Cell<usize>>,
    brand: PhantomData<(&'h (), T)>,
}

pub(crate) type HeapReadMut<'h, T> = HeapRead<'h, T>;
pub(crate) type HeapObjectRead<'h, T> = HeapRead<'h, T>;

impl<'h, T> HeapRead<'h, T> {
    fn new(id: HeapId, heap: &HeapReader<'h>) -> Self {
        let readers = Rc::clone(&heap.entries[id.0].readers);
        readers.set(readers.get() + 1);
        Self {
            id,
            readers,
            brand: PhantomData,
        }
    }

    pub fn id(&self) -> HeapId {
        self.id
    }
}

impl<T> Drop for HeapRead<'_, T> {
    fn drop(&mut self) {
        self.readers.set(self.readers.get() - 1);
    }
}

impl<'h, T: Entered> HeapRead<'h, T> {
    pub fn get<'a>(&self, heap: &'a HeapReader<'h>) -> &'a T {
        T::of(heap.data(self.id))
    }

    pub fn get_mut<'a>(&self, heap: &'a mut HeapReader<'h>) -> &'a mut T {
        T::of_mut(heap.data_mut(self.id))
    }
}

/// A type that a heap entry can hold and a handle can name.
pub(crate) trait Entered {
    fn of(data: &HeapData) -> &Self;
    fn of_mut(data: &mut HeapData) -> &mut Self;
}

macro_rules! entered {
    ($($name:ident),*) => {$(
        impl Entered for $name {
            fn of(data: &HeapData) -> &Self {
                let HeapData::$name(it) = data else { panic!("heap entry changed its sort") };
                it
            }
            fn of_mut(data: &mut HeapData) -> &mut Self {
                let HeapData::$name(it) = data else { panic!("heap entry changed its sort") };
                it
            }
        }
    )*};
}
entered!(Coroutine, ExternalFuture, GatherFuture);

pub(crate) trait ContainsHeap {
    fn heap(&self) -> &Heap;
    fn heap_mut(&mut self) -> &mut Heap;
}

impl ContainsHeap for Heap {
    fn heap(&self) -> &Heap {
        self
    }
    fn heap_mut(&mut self) -> &mut Heap {
        self
    }
}

impl ContainsHeap for HeapReader<'_> {
    fn heap(&self) -> &Heap {
        self
    }
    fn heap_mut(&mut self) -> &mut Heap {
        self
    }
}

/// Release of something that owns references, given what they point into.
pub(crate) trait DropWithContext<C> {
    fn drop_with(self, ctx: &mut C);
}

impl<C, T: DropWithContext<C>> DropWithContext<C> for Option<T> {
    fn drop_with(self, ctx: &mut C) {
        if let Some(it) = self {
            it.drop_with(ctx);
        }
    }
}

impl<C, T: DropWithContext<C>> DropWithContext<C> for Box<T> {
    fn drop_with(self, ctx: &mut C) {
        (*self).drop_with(ctx);
    }
}

impl<C, T: DropWithContext<C>> DropWithContext<C> for Vec<T> {
    fn drop_with(self, ctx: &mut C) {
        self.into_iter().for_each(|it| it.drop_with(ctx));
    }
}

impl<C, T: DropWithContext<C>> DropWithContext<C> for vec::Drain<'_, T> {
    fn drop_with(self, ctx: &mut C) {
        self.for_each(|it| it.drop_with(ctx));
    }
}

/// Holds a value and its context; releases the value at scope exit unless it is taken back.
pub(crate) struct DropGuard<'a, C, V: DropWithContext<C>> {
    value: Option<V>,
    ctx: Option<&'a mut C>,
}

impl<'a, C, V: DropWithContext<C>> DropGuard<'a, C, V> {
    pub fn new(value: V, ctx: &'a mut C) -> Self {
        Self {
            value: Some(value),
            ctx: Some(ctx),
        }
    }

    pub fn ctx(&mut self) -> &mut C {
        self.as_parts_mut().1
    }

    pub fn as_parts(&mut self) -> (&V, &mut C) {
        let (value, ctx) = self.as_parts_mut();
        (value, ctx)
    }

    pub fn as_parts_mut(&mut self) -> (&mut V, &mut C) {
        let value = self.value.as_mut().expect("guard is whole until consumed");
        let ctx = self.ctx.as_mut().expect("guard is whole until consumed");
        (value, ctx)
    }

    pub fn into_parts(mut self) -> (V, &'a mut C) {
        let value = self.value.take().expect("guard is whole until consumed");
        let ctx = self.ctx.take().expect("guard is whole until consumed");
        (value, ctx)
    }

    pub fn into_inner(self) -> V {
        self.into_parts().0
    }
}

impl<C, V: DropWithContext<C>> Drop for DropGuard<'_, C, V> {
    fn drop(&mut self) {
        if let (Some(value), Some(ctx)) = (self.value.take(), self.ctx.take()) {
            value.drop_with(ctx);
        }
    }
}

/// Shadows both names: the value by a reference to it, the context by one through the guard.
macro_rules! defer_drop {
    ($value:ident, $ctx:ident) => {
        let mut guard = $crate::heap::DropGuard::new($value, $ctx);
        #[allow(unused_variables)]
        let ($value, $ctx) = guard.as_parts();
    };
}
pub(crate) use defer_drop;

macro_rules! defer_drop_mut {
    ($value:ident, $ctx:ident) => {
        let mut guard = $crate::heap::DropGuard::new($value, $ctx);
        let ($value, $ctx) = guard.as_parts_mut();
    };
}
pub(crate) use defer_drop_mut;
