//! A sound table that owns its bytes.

use std::error::Error;
use std::fmt;

use crate::linked::Summary;
use crate::{Refusal, Table, Unsound, MAX_TABLE_BYTES};

/// A sound table, owned: for a server that keeps it. Questions are asked of [`TableBuf::table`].
///
/// Nothing lends its bytes to be changed, so what was tested stays true.
///
/// A server that takes a new policy while it answers puts the new one in the place of the old, and
/// questions that are under way end with the policy that they began with:
///
/// ```
/// use std::sync::{Arc, RwLock};
/// use tegzhumbi::TableBuf;
///
/// let current = RwLock::new(Arc::new(TableBuf::compile(b"(user ash)")?));
/// let under_way = Arc::clone(&current.read().unwrap());
///
/// let next = TableBuf::compile(b"(user birch) (user ash)")?;
/// *current.write().unwrap() = Arc::new(next);
///
/// // The numbers are those of each table.
/// assert_eq!(under_way.table().user("ash"), Some(tegzhumbi::User(0)));
/// assert_eq!(current.read().unwrap().table().user("ash"), Some(tegzhumbi::User(1)));
/// # Ok::<(), tegzhumbi::Refusal>(())
/// ```
#[derive(Clone)]
pub struct TableBuf {
    /// The table's own bytes: a sound table, and nothing after it.
    bytes: Vec<u8>,
    /// The summary of these bytes.
    summary: Summary,
}

impl TableBuf {
    /// Compiles a text.
    ///
    /// ```
    /// use tegzhumbi::TableBuf;
    ///
    /// let office = TableBuf::compile(b"(user ash) (user birch)")?;
    /// assert_eq!(office.table().users().len(), 2);
    /// # Ok::<(), tegzhumbi::Refusal>(())
    /// ```
    pub fn compile(text: &[u8]) -> Result<TableBuf, Refusal> {
        let mut memory = vec![0; MAX_TABLE_BYTES];
        crate::compile(text, &mut memory).map(TableBuf::from)
    }

    /// Tests whether the bytes are a sound table, and keeps them. What is after the table is cut
    /// off. Bytes that are not a sound table come back in the error.
    ///
    /// ```
    /// use tegzhumbi::TableBuf;
    ///
    /// let office = TableBuf::compile(b"(user ash)")?;
    /// let shipped: Vec<u8> = office.bytes().to_vec();
    ///
    /// let received = TableBuf::from_bytes(shipped)?;
    /// assert_eq!(received.bytes(), office.bytes());
    /// assert!(received.table().user("ash").is_some());
    ///
    /// let error = TableBuf::from_bytes(b"no table".to_vec()).unwrap_err();
    /// assert_eq!(error.to_string(), "not a sound table");
    /// assert_eq!(error.into_bytes(), b"no table");
    /// # Ok::<(), Box<dyn std::error::Error>>(())
    /// ```
    pub fn from_bytes(mut bytes: Vec<u8>) -> Result<TableBuf, UnsoundBytes> {
        match Table::new(&bytes) {
            Ok(Table {
                bytes: own,
                summary,
            }) => {
                let length = own.len();
                bytes.truncate(length);
                Ok(TableBuf { bytes, summary })
            }
            Err(Unsound) => Err(UnsoundBytes { bytes }),
        }
    }

    /// The table, to ask questions of. It is not tested again.
    pub fn table(&self) -> Table<'_> {
        Table {
            bytes: &self.bytes,
            summary: self.summary,
        }
    }

    /// The bytes of the table: what to keep in a file or send.
    pub fn bytes(&self) -> &[u8] {
        &self.bytes
    }

    /// The bytes of the table, given away.
    pub fn into_bytes(self) -> Vec<u8> {
        self.bytes
    }
}

impl From<Table<'_>> for TableBuf {
    /// Copies the bytes of the table. They are not tested again.
    fn from(table: Table<'_>) -> TableBuf {
        TableBuf {
            bytes: table.bytes.to_vec(),
            summary: table.summary,
        }
    }
}

impl AsRef<[u8]> for TableBuf {
    fn as_ref(&self) -> &[u8] {
        self.bytes()
    }
}

impl fmt::Debug for TableBuf {
    fn fmt(&self, f: &mut fmt::Formatter<'_>) -> fmt::Result {
        f.debug_tuple("TableBuf").field(&self.table()).finish()
    }
}

/// Bytes that [`TableBuf::from_bytes`] refused, since they are not a sound table.
pub struct UnsoundBytes {
    bytes: Vec<u8>,
}

impl UnsoundBytes {
    /// The bytes, given back as they were.
    pub fn into_bytes(self) -> Vec<u8> {
        self.bytes
    }
}

impl fmt::Debug for UnsoundBytes {
    /// How many bytes there are, since the bytes themselves would fill pages.
    fn fmt(&self, f: &mut fmt::Formatter<'_>) -> fmt::Result {
        f.debug_struct("UnsoundBytes")
            .field("bytes", &self.bytes.len())
            .finish()
    }
}

impl fmt::Display for UnsoundBytes {
    fn fmt(&self, f: &mut fmt::Formatter<'_>) -> fmt::Result {
        Unsound.fmt(f)
    }
}

impl Error for UnsoundBytes {}
