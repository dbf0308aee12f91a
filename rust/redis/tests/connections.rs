//! Calls over a real server.
mod common;

use common::{asked, pool_of};
use deadpool_redis::redis::{Client, RedisError, Value, cmd};
use deadpool_redis::{Config, Connection, Pool, PoolError};
use std::time::Duration;
use tokio::time::timeout;

#[tokio::test]
async fn answers_are_read_as_what_is_asked_for() {
    let pool = pool_of(1);
    let it = &mut pool.get().await.expect("a connection");
    assert_eq!(cmd("PING").query_async::<String>(it).await.expect("an answer"), "PONG");
    assert!(cmd("SET").arg("of_answers").arg(-7).query_async::<bool>(it).await.expect("it is set"));
    assert_eq!(asked::<i32>(it, &["GET", "of_answers"]).await.expect("a number"), -7);
    assert_eq!(asked::<Option<f64>>(it, &["GET", "of_answers"]).await.expect("a number"), Some(-7.0));
    assert_eq!(asked::<Option<String>>(it, &["GET", "of_nobody"]).await.expect("nothing"), None);
    assert!(matches!(asked::<u64>(it, &["GET", "of_answers"]).await, Err(RedisError::Form(_))));
    let bytes: &[u8] = &[0, 13, 10, 255];
    cmd("SET").arg("of_bytes").arg(bytes).query_async::<()>(it).await.expect("it is set");
    assert_eq!(asked::<Vec<u8>>(it, &["GET", "of_bytes"]).await.expect("bytes"), bytes);
    assert!(matches!(asked::<String>(it, &["GET", "of_bytes"]).await, Err(RedisError::Form(_))));
    asked::<()>(it, &["DEL", "of_list"]).await.expect("it is deleted");
    cmd("RPUSH").arg("of_list").arg([1_i64, 2, 3]).query_async::<()>(it).await.expect("they are added");
    assert_eq!(asked::<Vec<i64>>(it, &["LRANGE", "of_list", "0", "-1"]).await.expect("a list"), [1, 2, 3]);
    let nested = asked::<Value>(it, &["EVAL", "return {1, {'a', {}}, {{2}}}", "0"]).await.expect("lists");
    let list = |items: &[Value]| Value::Bulk(items.into());
    let inner = list(&[Value::Data(b"a".into()), list(&[])]);
    assert_eq!(nested, list(&[Value::Int(1), inner, list(&[list(&[Value::Int(2)])])]));
    let halfway = ["EVAL", "return {1, redis.error_reply('MY no')}", "0"];
    let Value::Bulk(halves) = asked(it, &halfway).await.expect("a list") else { panic!("no list") };
    assert!(matches!(&halves[..], [Value::Int(1), Value::ServerError(text)] if text.contains("MY no")), "{halves:?}");
    assert!(matches!(asked::<()>(it, &halfway).await, Err(RedisError::Refused(_))));
    let refused = asked::<()>(it, &["INCR", "of_list"]).await.expect_err("it is a list");
    assert!(matches!(&refused, RedisError::Refused(text) if text.starts_with("WRONGTYPE")), "{refused}");
    // (it can be used after a refusal)
    assert_eq!(asked::<i64>(it, &["LLEN", "of_list"]).await.expect("a number"), 3);
}

#[tokio::test]
async fn a_connection_that_is_of_no_use_is_given_up() {
    let pool = pool_of(1);
    let number = async |pool: &Pool| -> i64 {
        asked(&mut pool.get().await.expect("a connection"), &["CLIENT", "ID"]).await.expect("a number")
    };
    let first = number(&pool).await;
    assert_eq!(number(&pool).await, first);
    // (within a transaction, hearing what is published, and cut off)
    for words in [&["MULTI"][..], &["SUBSCRIBE", "news"]] {
        let before = number(&pool).await;
        asked::<Value>(&mut pool.get().await.expect("a connection"), words).await.expect("an answer");
        assert_ne!(number(&pool).await, before, "{words:?}");
    }
    let before = number(&pool).await;
    let mut cut_off = pool.get().await.expect("a connection");
    let waits = asked::<()>(&mut cut_off, &["BLPOP", "of_no_list", "0"]);
    assert!(timeout(Duration::from_millis(20), waits).await.is_err());
    assert!(matches!(asked::<()>(&mut cut_off, &["PING"]).await, Err(RedisError::CutOff)));
    drop(cut_off);
    assert_ne!(number(&pool).await, before);
    // (and one that watches is used again)
    let before = number(&pool).await;
    asked::<()>(&mut pool.get().await.expect("a connection"), &["WATCH", "a"]).await.expect("it watches");
    assert_eq!(number(&pool).await, before);
    let taken: Client = Connection::take(pool.get().await.expect("a connection"));
    assert_eq!(pool.status().size, 0);
    drop(taken);
}

#[tokio::test]
async fn a_server_that_is_not_there_or_refuses_is_said() {
    let nowhere = Config::from_url("redis://127.0.0.1:1").create_pool(None).expect("a pool");
    assert!(matches!(nowhere.get().await, Err(PoolError::Backend(RedisError::Io(_)))));
    let url = std::env::var("WITH_REDIS_URL").expect("a server");
    let (_, address) = url.rsplit_once('@').expect("there is a password");
    let stranger = Config::from_url(format!("redis://:wrong@{address}")).create_pool(None).expect("a pool");
    assert!(matches!(stranger.get().await, Err(PoolError::Backend(RedisError::Refused(_)))));
    assert!(Config::from_url("postgres://db").create_pool(None).is_err());
    assert_eq!((nowhere.status().size, stranger.status().size), (0, 0));
}
