//! A connection to a server.

use std::collections::HashMap;
use std::future::Future;
use std::pin::Pin;
use std::sync::{Arc, Mutex, PoisonError};
use std::task::{Context, Poll};
use std::time::Instant;

use tokio::task::JoinHandle;
use tokio_postgres::types::{ToSql, Type};
use tokio_postgres::{AsyncMessage, Client, Connection, Row, Socket, Statement};

use super::address::{Address, Stream};
use super::fault::{only, within, Fault};
use super::statements::{ROLE, STATE};

/// What a statement takes.
pub(crate) type Value<'a> = &'a (dyn ToSql + Sync);

/// What the server has warned of in a call.
type Warned = Arc<Mutex<Option<String>>>;

/// What a server is.
#[derive(Clone, PartialEq)]
pub(crate) struct Role {
    pub is_primary: bool,
    /// What servers have alike that came of one.
    pub system: String,
    pub started: String,
    /// The timeline of a primary.
    pub line: String,
}

/// A connection, for one call at a time. To drop it ends it at once.
pub(crate) struct Session {
    /// The number of its server.
    pub at: usize,
    /// Tells it from others at the server.
    pub name: String,
    client: Client,
    prepared: HashMap<&'static str, Statement>,
    schema: String,
    warned: Warned,
    task: JoinHandle<()>,
}

impl Session {
    pub async fn open(at: usize, address: &Address, schema: &str, end: Instant) -> Result<Session, Fault> {
        let (config, connector) = address.connector().map_err(Fault::server)?;
        let (client, connection) = within(end, config.connect(connector)).await??;
        let warned = Warned::default();
        let task = tokio::spawn(Driver { connection, warned: Arc::clone(&warned) });
        Ok(Session { at, name: String::new(), client, prepared: HashMap::new(), schema: schema.to_owned(), warned, task })
    }

    /// The rows that a statement answers, which the connection prepares once. They come once the server has committed.
    pub async fn call(&mut self, text: &'static str, values: &[Value<'_>], end: Instant) -> Result<Vec<Row>, Fault> {
        self.said();
        let (client, prepared, schema) = (&self.client, &mut self.prepared, &self.schema);
        let work = async move {
            if !prepared.contains_key(text) {
                // (the ID of an epoch is a text here)
                let types: &[Type] = if text == STATE { &[Type::TEXT] } else { &[] };
                prepared.insert(text, client.prepare_typed(&text.replace("{S}", schema), types).await?);
            }
            client.query(&prepared[text], values).await
        };
        let rows = within(end, work).await??;
        match self.said() {
            // (a commit that did not wait for standbys is no error for the server)
            Some(warned) => Err(Fault::server(format_args!("the server warns: {warned}"))),
            None => Ok(rows),
        }
    }

    fn said(&self) -> Option<String> {
        self.warned.lock().unwrap_or_else(PoisonError::into_inner).take()
    }

    pub async fn role(&mut self, end: Instant) -> Result<Role, Fault> {
        let row = only(self.call(ROLE, &[], end).await?)?;
        Ok(Role { is_primary: row.get::<i64>(0)? == 1, system: row.get(1)?, started: row.get(2)?, line: row.get(3)? })
    }
}

impl Drop for Session {
    fn drop(&mut self) {
        self.task.abort();
    }
}

/// Moves what goes over a connection, and hears warnings.
struct Driver {
    connection: Connection<Socket, Stream>,
    warned: Warned,
}

impl Future for Driver {
    type Output = ();

    fn poll(mut self: Pin<&mut Self>, cx: &mut Context<'_>) -> Poll<()> {
        loop {
            match self.connection.poll_message(cx) {
                Poll::Ready(Some(Ok(AsyncMessage::Notice(said)))) => {
                    // (that is the class of notices that are no warnings)
                    if !said.code().code().starts_with("00") {
                        *self.warned.lock().unwrap_or_else(PoisonError::into_inner) = Some(said.message().to_owned());
                    }
                }
                Poll::Ready(Some(Ok(_))) => {}
                Poll::Ready(_) => return Poll::Ready(()),
                Poll::Pending => return Poll::Pending,
            }
        }
    }
}
