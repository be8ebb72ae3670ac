//! Types, and the identifiers' types as an environment that is cheap to clone.

use std::collections::BTreeMap;
use std::sync::Arc;

#[derive(Clone, Debug, PartialEq, Eq, Hash)]
pub enum Type {
    Int,
    Bool,
    Pow(Box<Type>),
    Prod(Box<Type>, Box<Type>),
}

impl Type {
    /// Document 01's only sets.
    pub(crate) fn integer_set() -> Type {
        Type::Pow(Box::new(Type::Int))
    }
}

#[derive(Clone, Debug, Default)]
pub struct SealedTypeEnvironment(Arc<BTreeMap<String, Type>>);

impl SealedTypeEnvironment {
    pub(crate) fn get(&self, name: &str) -> Option<&Type> {
        self.0.get(name)
    }

    pub(crate) fn to_builder(&self) -> TypeEnvironmentBuilder {
        TypeEnvironmentBuilder((*self.0).clone())
    }
}

#[derive(Default)]
pub struct TypeEnvironmentBuilder(BTreeMap<String, Type>);

impl TypeEnvironmentBuilder {
    pub(crate) fn get(&self, name: &str) -> Option<&Type> {
        self.0.get(name)
    }

    pub(crate) fn insert(&mut self, name: &str, ty: Type) {
        self.0.insert(name.to_string(), ty);
    }

    pub(crate) fn into_snapshot(self) -> SealedTypeEnvironment {
        SealedTypeEnvironment(Arc::new(self.0))
    }
}
