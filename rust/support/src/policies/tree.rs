//! JSON before it is printed.

/// A name, before escapes, and its value.
pub type Member = (Vec<u8>, Tree);

#[derive(Clone, Debug, PartialEq, Eq)]
pub enum Tree {
    Object(Vec<Member>),
    List(Vec<Tree>),
    /// The bytes of a string, before escapes.
    Text(Vec<u8>),
    /// A number, `true`, `false` or `null`, as it is printed.
    Word(&'static str),
}

pub fn text(text: &str) -> Tree {
    Tree::Text(text.into())
}

pub fn member(name: &str, value: Tree) -> Member {
    (name.into(), value)
}

impl Tree {
    /// The values directly inside.
    fn inside(&self) -> Vec<&Tree> {
        match self {
            Tree::Object(members) => members.iter().map(|(_, value)| value).collect(),
            Tree::List(elements) => elements.iter().collect(),
            _ => vec![],
        }
    }

    /// The number of values, this one counted.
    pub fn size(&self) -> usize {
        1 + self.inside().into_iter().map(Tree::size).sum::<usize>()
    }

    /// The way from the top to the value of this number, counted as they are printed: of each object and list on the way,
    /// which member or element.
    pub fn path_to(&self, number: usize) -> Vec<usize> {
        let mut left = number;
        let mut path = Vec::new();
        let mut here = self;
        'down: while left > 0 {
            left -= 1;
            for (at, value) in here.inside().into_iter().enumerate() {
                let size = value.size();
                if left < size {
                    path.push(at);
                    here = value;
                    continue 'down;
                }
                left -= size;
            }
            panic!("a number past the last value");
        }
        path
    }

    /// The ways from the top to every value.
    pub fn paths(&self) -> Vec<Vec<usize>> {
        (0..self.size()).map(|number| self.path_to(number)).collect()
    }

    /// The value at the end of a way.
    pub fn at(&mut self, path: &[usize]) -> &mut Tree {
        let Some((&first, rest)) = path.split_first() else {
            return self;
        };
        match self {
            Tree::Object(members) => members[first].1.at(rest),
            Tree::List(elements) => elements[first].at(rest),
            _ => panic!("a way that goes on behind its end"),
        }
    }
}
