//! Stands in for rowan: the trees that `syntax.rs`, `parser.rs` and `eval.rs` build and walk.
//!
//! A tree is the list of its nodes and tokens in preorder and the text of its tokens, end to end. A
//! syntax node or token is a place in such a list, read in a language.

use std::fmt::Debug;
use std::hash::Hash;
use std::marker::PhantomData;
use std::ops::Range;
use std::rc::Rc;

/// A kind as a bare number.
#[derive(Debug, Clone, Copy, PartialEq, Eq, PartialOrd, Ord, Hash)]
pub struct SyntaxKind(pub u16);

/// A language: its kinds, to and from bare numbers.
pub trait Language: Sized + Copy + Debug + Eq + Ord + Hash {
    type Kind: Sized + Copy + Debug + Eq + Ord + Hash;

    fn kind_from_raw(raw: SyntaxKind) -> Self::Kind;
    fn kind_to_raw(kind: Self::Kind) -> SyntaxKind;
}

#[derive(Debug, Clone, PartialEq, Eq)]
pub enum NodeOrToken<N, T> {
    Node(N),
    Token(T),
}

/// A node or a token of a tree.
#[derive(Debug, Clone, Copy, PartialEq, Eq)]
pub struct Element {
    pub kind: SyntaxKind,
    pub is_token: bool,
    /// How many nodes it stands in.
    pub level: u32,
    /// Its first and its end byte in the tree's text.
    pub first: u32,
    pub end: u32,
}

#[derive(Debug, Default)]
struct Tree {
    elements: Vec<Element>,
    text: String,
}

/// A finished tree.
#[derive(Debug, Clone)]
pub struct GreenNode(Rc<Tree>);

/// Builds a tree from calls in preorder.
#[derive(Debug)]
pub struct GreenNodeBuilder<'cache> {
    tree: Tree,
    /// The places of the nodes begun and not yet finished, the innermost last.
    open: Vec<usize>,
    cache: PhantomData<&'cache ()>,
}

impl Default for GreenNodeBuilder<'_> {
    /// With room for a small tree, which is cheaper than growing to it.
    fn default() -> Self {
        let tree = Tree {
            elements: Vec::with_capacity(60),
            text: String::with_capacity(256),
        };
        Self {
            tree,
            open: Vec::with_capacity(16),
            cache: PhantomData,
        }
    }
}

impl GreenNodeBuilder<'_> {
    pub fn new() -> Self {
        Self::default()
    }

    pub fn start_node(&mut self, kind: SyntaxKind) {
        let place = self.tree.elements.len();
        assert!(place == 0 || !self.open.is_empty(), "two roots");
        self.push(kind, false, self.tree.text.len());
        self.open.push(place);
    }

    pub fn token(&mut self, kind: SyntaxKind, text: &str) {
        assert!(!self.open.is_empty(), "a token outside any node");
        let first = self.tree.text.len();
        self.tree.text.push_str(text);
        self.push(kind, true, first);
    }

    pub fn finish_node(&mut self) {
        let place = self.open.pop().expect("no node to finish");
        self.tree.elements[place].end = self.tree.text.len() as u32;
    }

    pub fn finish(self) -> GreenNode {
        assert!(self.open.is_empty(), "a node is not finished");
        assert!(!self.tree.elements.is_empty(), "no root");
        GreenNode(Rc::new(self.tree))
    }

    /// Adds an element from `first` to the end of the text so far.
    fn push(&mut self, kind: SyntaxKind, is_token: bool, first: usize) {
        self.tree.elements.push(Element {
            kind,
            is_token,
            level: self.open.len() as u32,
            first: first as u32,
            end: self.tree.text.len() as u32,
        });
    }
}

/// A node of a tree, read in the language `L`.
#[derive(Debug, Clone)]
pub struct SyntaxNode<L> {
    tree: Rc<Tree>,
    place: usize,
    language: PhantomData<L>,
}

/// A token of a tree, read in the language `L`.
#[derive(Debug, Clone)]
pub struct SyntaxToken<L> {
    tree: Rc<Tree>,
    place: usize,
    language: PhantomData<L>,
}

type SyntaxElement<L> = NodeOrToken<SyntaxNode<L>, SyntaxToken<L>>;

impl<L: Language> SyntaxNode<L> {
    pub fn new_root(green: GreenNode) -> Self {
        Self {
            tree: green.0,
            place: 0,
            language: PhantomData,
        }
    }

    pub fn kind(&self) -> L::Kind {
        L::kind_from_raw(self.tree.elements[self.place].kind)
    }

    /// The nodes directly below.
    pub fn children(&self) -> impl Iterator<Item = SyntaxNode<L>> + '_ {
        self.children_with_tokens().filter_map(|child| match child {
            NodeOrToken::Node(node) => Some(node),
            NodeOrToken::Token(_) => None,
        })
    }

    /// The nodes and tokens directly below.
    pub fn children_with_tokens(&self) -> impl Iterator<Item = SyntaxElement<L>> + '_ {
        let level = self.tree.elements[self.place].level + 1;
        let child = move |place: &usize| self.tree.elements[*place].level == level;
        self.places().filter(child).map(|place| self.read(place))
    }

    /// This node and all nodes and tokens below it, in preorder.
    pub fn descendants_with_tokens(&self) -> impl Iterator<Item = SyntaxElement<L>> + '_ {
        self.places().map(|place| self.read(place))
    }

    /// This node and all below it as they stand in the tree. Not rowan's: the oracle asks it.
    pub fn elements(&self) -> &[Element] {
        &self.tree.elements[self.places()]
    }

    /// The text of the whole tree. Not rowan's either.
    pub fn tree_text(&self) -> &str {
        &self.tree.text
    }

    /// The places of this node and of all below it.
    fn places(&self) -> Range<usize> {
        let level = self.tree.elements[self.place].level;
        let after = self.tree.elements[self.place + 1..].iter();
        let below = after.take_while(|element| element.level > level).count();
        self.place..self.place + 1 + below
    }

    fn read(&self, place: usize) -> SyntaxElement<L> {
        let tree = self.tree.clone();
        let language = PhantomData;
        if self.tree.elements[place].is_token {
            NodeOrToken::Token(SyntaxToken {
                tree,
                place,
                language,
            })
        } else {
            NodeOrToken::Node(SyntaxNode {
                tree,
                place,
                language,
            })
        }
    }
}

impl<L: Language> SyntaxToken<L> {
    pub fn kind(&self) -> L::Kind {
        L::kind_from_raw(self.tree.elements[self.place].kind)
    }

    pub fn text(&self) -> &str {
        let Element { first, end, .. } = self.tree.elements[self.place];
        &self.tree.text[first as usize..end as usize]
    }
}
