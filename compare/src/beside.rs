//! What the Rust's files lean on and what is not among them, as far as they need it to be compiled.

use std::cell::OnceCell;
use std::marker::PhantomData;

/// A parameter or an argument: a variable or a filter.
#[derive(Clone, Debug)]
pub enum Bind<V = (), F = V> {
    Var(V),
    Fun(F),
}

impl<V, F> Bind<V, F> {
    pub fn as_ref(&self) -> Bind<&V, &F> {
        match *self {
            Bind::Var(ref variable) => Bind::Var(variable),
            Bind::Fun(ref filter) => Bind::Fun(filter),
        }
    }
}

impl<T> Bind<T> {
    pub fn map<U>(self, change: impl FnOnce(T) -> U) -> Bind<U> {
        let (is_variable, of) = match self {
            Bind::Var(of) => (true, of),
            Bind::Fun(of) => (false, of),
        };
        let constructor = if is_variable { Bind::Var } else { Bind::Fun };
        constructor(change(of))
    }
}

/// Texts that live as long as the arena. Each one holds the place of the next.
pub struct Arena<T>(OnceCell<Box<(T, Self)>>);

impl<T> Default for Arena<T> {
    fn default() -> Self {
        Self(OnceCell::new())
    }
}

impl<T> Arena<T> {
    pub fn alloc(&self, text: T) -> &T {
        let mut end = self;
        while let Some(next) = end.0.get() {
            end = &next.1;
        }
        &end.0.get_or_init(|| Box::new((text, Self::default()))).0
    }
}

// Running a filter is no part of the comparison. These are named in signatures, and none is made.

pub struct Error<V>(PhantomData<V>);

pub enum Never {}

pub struct Exn<'a, V>(Never, PhantomData<&'a V>);

impl<V> Exn<'_, V> {
    pub fn get_err(self) -> Result<Error<V>, Self> {
        match self.0 {}
    }

    pub fn get_halt(self) -> Result<usize, Self> {
        match self.0 {}
    }
}

#[derive(Clone)]
pub struct RcList<T>(PhantomData<T>);

impl<T> RcList<T> {
    pub fn cons(self, _: T) -> Self {
        self
    }
}
