//! Who records.
use crate::writer::draw_instance;

/// Who records: a service, and its instance. Of two writers that share both and their start a gateway keeps one alone, so an instance is
/// drawn anew where none is given.
#[derive(Clone, Debug, PartialEq, Eq)]
pub struct Resource {
    pub(super) service: String,
    pub(super) instance: u128,
}

impl Resource {
    pub fn builder() -> ResourceBuilder {
        ResourceBuilder {
            service: "unknown_service".to_owned(),
            instance: None,
        }
    }

    /// The service's name.
    pub fn service_name(&self) -> &str {
        &self.service
    }

    /// The instance: that which was given, or drawn.
    pub fn instance(&self) -> u128 {
        self.instance
    }
}

/// Makes a [`Resource`].
#[derive(Clone, Debug)]
pub struct ResourceBuilder {
    service: String,
    instance: Option<u128>,
}

impl ResourceBuilder {
    /// `service.name`: `unknown_service` where none is given.
    pub fn with_service_name(mut self, name: impl Into<String>) -> ResourceBuilder {
        self.service = name.into();
        self
    }

    /// `service.instance.id`: no two processes have the same. One is drawn at random where none is given.
    pub fn with_service_instance(mut self, instance: u128) -> ResourceBuilder {
        self.instance = Some(instance);
        self
    }

    pub fn build(self) -> Resource {
        Resource {
            service: self.service,
            instance: self.instance.unwrap_or_else(draw_instance),
        }
    }
}
