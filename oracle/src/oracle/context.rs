//! Stand-in for the crate's `context`: a registration is a mailbox. What a
//! parameter posts waits there until the driver hands it to the processor.

use std::any::Any;
use std::collections::VecDeque;
use std::sync::{Arc, Mutex};

pub type Message = Box<dyn Any + Send>;

#[derive(Clone, Debug, Default)]
pub struct AudioContextRegistration {
    mail: Arc<Mutex<VecDeque<Message>>>,
}

impl AudioContextRegistration {
    pub(crate) fn post_message<M: Any + Send + 'static>(&self, msg: M) {
        self.mail.lock().unwrap().push_back(Box::new(msg));
    }

    /// Ours: the oldest message not yet handed over.
    pub fn next_message(&self) -> Option<Message> {
        self.mail.lock().unwrap().pop_front()
    }
}
