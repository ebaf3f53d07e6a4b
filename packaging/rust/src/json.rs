//! The reader of the library's objects of JSON, for the values of answers.

/// A value of JSON. Numbers are whole, and texts have no escapes: the library writes no others.
#[derive(Debug)]
pub(crate) enum Json<'t> {
    Null,
    Flag(bool),
    Number(i64),
    Text(&'t str),
    List(Vec<Json<'t>>),
    Object(Vec<(&'t str, Json<'t>)>),
}

impl<'t> Json<'t> {
    /// The value that a text is; none where it is no such text.
    pub(crate) fn read(text: &'t str) -> Option<Json<'t>> {
        let mut rest = Rest(text);
        let told = rest.value()?;
        Some(told).filter(|_| rest.0.is_empty())
    }

    /// A member of an object.
    pub(crate) fn member(&self, name: &str) -> Option<&Json<'t>> {
        match self {
            Json::Object(members) => members.iter().find(|(key, _)| *key == name).map(|(_, value)| value),
            _ => None,
        }
    }

    pub(crate) fn as_text(&self) -> Option<&'t str> {
        match self {
            Json::Text(text) => Some(text),
            _ => None,
        }
    }

    pub(crate) fn text(&self, name: &str) -> Option<&'t str> {
        self.member(name)?.as_text()
    }

    pub(crate) fn flag(&self, name: &str) -> Option<bool> {
        match self.member(name)? {
            Json::Flag(flag) => Some(*flag),
            _ => None,
        }
    }

    /// A number, where it is one of this type.
    pub(crate) fn number<N: TryFrom<i64>>(&self, name: &str) -> Option<N> {
        match self.member(name)? {
            Json::Number(number) => N::try_from(*number).ok(),
            _ => None,
        }
    }

    pub(crate) fn list(&self, name: &str) -> Option<&[Json<'t>]> {
        match self.member(name)? {
            Json::List(values) => Some(values),
            _ => None,
        }
    }
}

/// What is left of a text.
struct Rest<'t>(&'t str);

impl<'t> Rest<'t> {
    /// Whether it begins so; what stands there is taken.
    fn takes(&mut self, front: &str) -> bool {
        self.0.strip_prefix(front).map(|rest| self.0 = rest).is_some()
    }

    fn value(&mut self) -> Option<Json<'t>> {
        match self.0.as_bytes().first()? {
            b'{' => self.several("{", "}", |rest| Some((rest.text()?, rest.behind_colon()?))).map(Json::Object),
            b'[' => self.several("[", "]", Rest::value).map(Json::List),
            b'"' => self.text().map(Json::Text),
            b'n' => self.takes("null").then_some(Json::Null),
            b't' => self.takes("true").then_some(Json::Flag(true)),
            b'f' => self.takes("false").then_some(Json::Flag(false)),
            _ => self.number().map(Json::Number),
        }
    }

    fn behind_colon(&mut self) -> Option<Json<'t>> {
        self.0 = self.0.strip_prefix(':')?;
        self.value()
    }

    /// What stands between two marks, with commas between one and the next.
    fn several<T>(&mut self, start: &str, end: &str, one: impl Fn(&mut Self) -> Option<T>) -> Option<Vec<T>> {
        let (mut told, mut is_over) = (Vec::new(), !self.takes(start) || self.takes(end));
        while !is_over {
            told.push(one(self)?);
            is_over = self.takes(end);
            if !is_over && !self.takes(",") {
                return None;
            }
        }
        Some(told)
    }

    fn text(&mut self) -> Option<&'t str> {
        let (text, rest) = self.0.strip_prefix('"')?.split_once('"')?;
        self.0 = rest;
        Some(text)
    }

    fn number(&mut self) -> Option<i64> {
        let end = self.0.find(|letter: char| !letter.is_ascii_digit() && letter != '-').unwrap_or(self.0.len());
        let (number, rest) = self.0.split_at(end);
        self.0 = rest;
        number.parse().ok()
    }
}
