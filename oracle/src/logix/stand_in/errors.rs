//! Stand-in for logix's error types, as far as `flatten` names them.

#[derive(Debug)]
pub enum ComponentRequestError {
    InvalidComponentId(usize),
    NonPrimitive,
}

#[derive(Debug)]
pub enum DataRequestError {
    Component(ComponentRequestError),
    InvalidInputPortIndex(usize),
    InvalidOutputPortIndex(usize),
}

impl From<ComponentRequestError> for DataRequestError {
    fn from(error: ComponentRequestError) -> Self {
        DataRequestError::Component(error)
    }
}

/// `reindex_connections` never makes one.
#[derive(Debug)]
pub enum FlattenComponentError {}
