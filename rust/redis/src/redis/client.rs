//! A connection, and the calls on it, by the second version of the server's protocol.
use super::error::no;
use super::{ConnectionInfo, FromRedisValue, RedisError, ToRedisArgs, Value};
use std::io::ErrorKind;
use tokio::io::{AsyncBufReadExt, AsyncReadExt, AsyncWriteExt, BufReader};
use tokio::net::TcpStream;

/// The most bytes that a server sends as one.
const MOST: usize = 512 << 20;

/// A connection. A call that is cut off leaves an answer on its way, so that none can be made after it.
#[derive(Debug)]
pub struct Client {
    stream: BufReader<TcpStream>,
    is_within: bool,
}

/// An answer, or the text by which the server has refused the call.
pub(crate) type Answer = Result<Value, String>;

impl Client {
    /// A connection, once the server has taken its password.
    ///
    /// # Errors
    ///
    /// The server cannot be reached, or refuses it.
    pub async fn connect(info: &ConnectionInfo) -> Result<Self, RedisError> {
        let stream = TcpStream::connect(&info.address).await?;
        stream.set_nodelay(true)?;
        let mut client = Client { stream: BufReader::new(stream), is_within: false };
        match (&info.username, &info.password) {
            (Some(name), Some(password)) => client.call(&["AUTH", name, password]).await.map(drop)?,
            (None, Some(password)) => client.call(&["AUTH", password]).await.map(drop)?,
            (_, None) => {}
        }
        if info.database != 0 {
            client.call(&["SELECT", &info.database.to_string()]).await?;
        }
        Ok(client)
    }

    async fn call(&mut self, words: &[&str]) -> Result<Value, RedisError> {
        let answers = self.request(&[words]).await?;
        answers.into_iter().next().unwrap_or(Ok(Value::Nil)).map_err(RedisError::Refused)
    }

    /// Makes calls at once, and gives their answers in order.
    pub(crate) async fn request<W: AsRef<[u8]>>(&mut self, calls: &[&[W]]) -> Result<Vec<Answer>, RedisError> {
        if std::mem::replace(&mut self.is_within, true) {
            return Err(RedisError::CutOff);
        }
        let sent: Vec<u8> = calls.iter().flat_map(|words| written(words)).collect();
        self.stream.write_all(&sent).await?;
        let mut answers = Vec::with_capacity(calls.len());
        for _ in calls {
            answers.push(self.answer().await?);
        }
        self.is_within = false;
        Ok(answers)
    }

    /// An answer. Those that stand in a list are read one by one, whatever lists these are in.
    async fn answer(&mut self) -> Result<Answer, RedisError> {
        let mut lists: Vec<(usize, Vec<Value>)> = Vec::new();
        loop {
            let line = self.line().await?;
            let (kind, rest) = line.split_at_checked(1).ok_or_else(|| no("answer", &line))?;
            let mut value = match kind {
                "+" => Value::Status(rest.into()),
                "-" if lists.is_empty() => return Ok(Err(rest.into())),
                "-" => Value::ServerError(rest.into()),
                ":" => Value::Int(number_of(rest)?),
                "$" | "*" if rest == "-1" => Value::Nil,
                "$" => Value::Data(self.bytes(length_of(rest)?).await?),
                "*" => match length_of(rest)? {
                    0 => Value::Bulk(Vec::new()),
                    length => {
                        lists.push((length, Vec::new()));
                        continue;
                    }
                },
                _ => return Err(no("answer", &line)),
            };
            // (a list whose last item this is is an item of the one around it)
            loop {
                let Some((length, items)) = lists.last_mut() else { return Ok(Ok(value)) };
                items.push(value);
                if items.len() < *length {
                    break;
                }
                value = lists.pop().map_or(Value::Nil, |(_, items)| Value::Bulk(items));
            }
        }
    }

    async fn line(&mut self) -> Result<String, RedisError> {
        let mut line = String::new();
        if self.stream.read_line(&mut line).await? == 0 {
            return Err(RedisError::Io(ErrorKind::UnexpectedEof.into()));
        }
        line.truncate(line.trim_end_matches(['\r', '\n']).len());
        Ok(line)
    }

    async fn bytes(&mut self, length: usize) -> Result<Vec<u8>, RedisError> {
        let mut bytes = vec![0; length + 2];
        self.stream.read_exact(&mut bytes).await?;
        bytes.truncate(length);
        Ok(bytes)
    }
}

impl AsMut<Client> for Client {
    fn as_mut(&mut self) -> &mut Client {
        self
    }
}

fn number_of(text: &str) -> Result<i64, RedisError> {
    text.parse().map_err(|_| no("number", &text))
}

fn length_of(text: &str) -> Result<usize, RedisError> {
    text.parse().ok().filter(|length| *length <= MOST).ok_or_else(|| no("length", &text))
}

/// A call, as it is sent.
fn written<W: AsRef<[u8]>>(words: &[W]) -> Vec<u8> {
    let mut sent = format!("*{}\r\n", words.len()).into_bytes();
    for word in words {
        sent.extend_from_slice(format!("${}\r\n", word.as_ref().len()).as_bytes());
        sent.extend_from_slice(word.as_ref());
        sent.extend_from_slice(b"\r\n");
    }
    sent
}

/// A call, with its arguments.
#[derive(Clone, Debug, Eq, PartialEq)]
#[must_use]
pub struct Cmd(Vec<Vec<u8>>);

/// A call of this name.
pub fn cmd(name: &str) -> Cmd {
    Cmd(vec![name.into()])
}

impl Cmd {
    /// With this argument, or all of a list.
    pub fn arg(&mut self, arg: impl ToRedisArgs) -> &mut Self {
        arg.write_redis_args(&mut self.0);
        self
    }

    /// Makes the call, and reads its answer.
    ///
    /// # Errors
    ///
    /// The server has refused it, its answer is something else, or the connection is lost.
    ///
    /// # Cancel safety
    ///
    /// If this is dropped the server may make the call or not, and the connection is of no use any more: a pool gives it up.
    pub async fn query_async<T: FromRedisValue>(&self, connection: &mut impl AsMut<Client>) -> Result<T, RedisError> {
        let words: Vec<&[u8]> = self.0.iter().map(Vec::as_slice).collect();
        let mut answers = connection.as_mut().request(&[&words]).await?;
        T::from_redis_value(answers.pop().unwrap_or(Ok(Value::Nil)).map_err(RedisError::Refused)?)
    }
}
