//! What ends a run without the answer that was asked for.

#[derive(Debug)]
pub enum Failure {
    /// The request, or the text that should be one, is refused.
    Refused(String),
    /// The command was called in a way that means nothing.
    Usage(String),
    /// Something could not be read or written.
    Stream(String),
}

impl Failure {
    pub fn status(&self) -> u8 {
        match self {
            Failure::Refused(_) => 1,
            Failure::Usage(_) => 2,
            Failure::Stream(_) => 3,
        }
    }

    /// The message as it is told: never more than a screen of what was read.
    pub fn short(&self) -> String {
        const SCREEN: usize = 1_600;
        let message = self.message().trim_end();
        match (self, message.char_indices().nth(SCREEN)) {
            (Failure::Usage(_), _) | (_, None) => message.to_string(),
            (_, Some((end, _))) => format!("{}...", &message[..end]),
        }
    }

    pub fn message(&self) -> &str {
        match self {
            Failure::Refused(message) | Failure::Usage(message) | Failure::Stream(message) => {
                message
            }
        }
    }
}
