//! A delivery as values, under MIGRA's names, and the plain writer of its
//! files.

use crate::layout::{
    CATALOGO, FILES, NODO, OB_COMP, OB_LIN, OB_PUN, OB_TEX, RECORD, TRAMO, VERTICE,
};

/// CATALOGO, OB_PUN, OB_TEX, OB_LIN, TRAMO, VERTICE, NODO, OB_COMP.
pub type Files = [Vec<u8>; FILES];

/// The six fields of a position or centroid: a signed number each, or missing.
#[derive(Clone, Copy, Debug, Default, PartialEq, Eq)]
pub struct Posicion {
    pub x: Option<i64>,
    pub y: Option<i64>,
    pub z: Option<i64>,
}

impl Posicion {
    pub fn at(place: (i64, i64), z: Option<i64>) -> Posicion {
        Posicion {
            x: Some(place.0),
            y: Some(place.1),
            z,
        }
    }

    /// What the topology compares: never Z.
    pub fn xy(&self) -> (Option<i64>, Option<i64>) {
        (self.x, self.y)
    }
}

#[derive(Clone, Debug, PartialEq, Eq)]
pub struct Catalogo {
    pub codigo: Vec<u8>,
    pub tipo: u8,
    pub nombre_c: Vec<u8>,
    pub definici: Vec<u8>,
}

#[derive(Clone, Debug, PartialEq, Eq)]
pub struct ObPun {
    pub id_opun: u64,
    pub id_ocomp: Option<u64>,
    pub id_nodo: Option<u64>,
    pub codigo: Vec<u8>,
    pub nombre_i: Vec<u8>,
    pub orientac: Option<u64>,
    pub magnific: Option<u64>,
    pub posicion: Posicion,
}

#[derive(Clone, Debug, PartialEq, Eq)]
pub struct ObTex {
    pub id_otex: u64,
    pub id_ocomp: Option<u64>,
    pub codigo: Vec<u8>,
    pub literal: Vec<u8>,
    pub altura: Option<u64>,
    pub anchura: Option<u64>,
    pub orientac: Option<u64>,
    pub justifi: Option<u64>,
    pub posicion: Posicion,
}

#[derive(Clone, Debug, PartialEq, Eq)]
pub struct ObLin {
    pub id_olin: u64,
    pub id_ocomp: Option<u64>,
    pub codigo: Vec<u8>,
    pub nombre_i: Vec<u8>,
    pub centroide: Posicion,
}

#[derive(Clone, Debug, PartialEq, Eq)]
pub struct Tramo {
    pub id_tramo: u64,
    pub id_olin: u64,
    pub id_perim: Option<u64>,
    pub id_linea: Option<u64>,
    pub codigo: Vec<u8>,
    pub id_nodoi: u64,
    pub id_nodof: u64,
    /// `+`, `-` or blank.
    pub sentido: u8,
}

impl Tramo {
    /// The line it uses: a blank line id means the line of the tramo's own id.
    pub fn line(&self) -> u64 {
        self.id_linea.unwrap_or(self.id_tramo)
    }
}

#[derive(Clone, Debug, PartialEq, Eq)]
pub struct Vertice {
    pub id_linea: u64,
    pub no_orden: u64,
    pub posicion: Posicion,
}

#[derive(Clone, Debug, PartialEq, Eq)]
pub struct Nodo {
    pub id_nodo: u64,
    /// A code of section 5.6.11; blank is missing.
    pub tipo: u8,
    pub posicion: Posicion,
}

#[derive(Clone, Debug, PartialEq, Eq)]
pub struct ObComp {
    pub id_ocomp: u64,
    pub codigo: Vec<u8>,
    pub nombre_i: Vec<u8>,
    pub centroide: Posicion,
}

#[derive(Clone, Debug, Default, PartialEq, Eq)]
pub struct Model {
    pub catalogo: Vec<Catalogo>,
    pub ob_pun: Vec<ObPun>,
    pub ob_tex: Vec<ObTex>,
    pub ob_lin: Vec<ObLin>,
    pub tramo: Vec<Tramo>,
    pub vertice: Vec<Vertice>,
    pub nodo: Vec<Nodo>,
    pub ob_comp: Vec<ObComp>,
}

/// The model's files. It panics over a value wider than its field: that
/// would be a mistake of the generator, not a damage.
pub fn write(model: &Model) -> Files {
    [
        file(CATALOGO, &model.catalogo, put_catalogo),
        file(OB_PUN, &model.ob_pun, put_ob_pun),
        file(OB_TEX, &model.ob_tex, put_ob_tex),
        file(OB_LIN, &model.ob_lin, put_ob_lin),
        file(TRAMO, &model.tramo, put_tramo),
        file(VERTICE, &model.vertice, put_vertice),
        file(NODO, &model.nodo, put_nodo),
        file(OB_COMP, &model.ob_comp, put_ob_comp),
    ]
}

/// Every field puts a bar behind itself; the last bar gives way to 0D 0A.
fn file<T>(kind: usize, records: &[T], put: fn(&T, &mut Vec<u8>)) -> Vec<u8> {
    let mut bytes = Vec::with_capacity(records.len() * RECORD[kind] + 1);
    for record in records {
        put(record, &mut bytes);
        bytes.pop();
        bytes.extend_from_slice(b"\r\n");
    }
    bytes
}

fn put_catalogo(record: &Catalogo, out: &mut Vec<u8>) {
    text(out, 7, &record.codigo);
    text(out, 1, &[record.tipo]);
    text(out, 60, &record.nombre_c);
    text(out, 60, &record.definici);
}

fn put_ob_pun(record: &ObPun, out: &mut Vec<u8>) {
    number(out, 10, Some(record.id_opun));
    number(out, 10, record.id_ocomp);
    number(out, 10, record.id_nodo);
    text(out, 7, &record.codigo);
    text(out, 60, &record.nombre_i);
    number(out, 5, record.orientac);
    number(out, 3, record.magnific);
    position(out, &record.posicion);
}

fn put_ob_tex(record: &ObTex, out: &mut Vec<u8>) {
    number(out, 10, Some(record.id_otex));
    number(out, 10, record.id_ocomp);
    text(out, 7, &record.codigo);
    text(out, 60, &record.literal);
    number(out, 3, record.altura);
    number(out, 3, record.anchura);
    number(out, 5, record.orientac);
    number(out, 1, record.justifi);
    position(out, &record.posicion);
}

fn put_ob_lin(record: &ObLin, out: &mut Vec<u8>) {
    number(out, 10, Some(record.id_olin));
    number(out, 10, record.id_ocomp);
    text(out, 7, &record.codigo);
    text(out, 60, &record.nombre_i);
    position(out, &record.centroide);
}

fn put_tramo(record: &Tramo, out: &mut Vec<u8>) {
    number(out, 10, Some(record.id_tramo));
    number(out, 10, Some(record.id_olin));
    number(out, 10, record.id_perim);
    number(out, 10, record.id_linea);
    text(out, 7, &record.codigo);
    number(out, 10, Some(record.id_nodoi));
    number(out, 10, Some(record.id_nodof));
    text(out, 1, &[record.sentido]);
}

fn put_vertice(record: &Vertice, out: &mut Vec<u8>) {
    number(out, 10, Some(record.id_linea));
    number(out, 5, Some(record.no_orden));
    position(out, &record.posicion);
}

fn put_nodo(record: &Nodo, out: &mut Vec<u8>) {
    number(out, 10, Some(record.id_nodo));
    text(out, 1, &[record.tipo]);
    position(out, &record.posicion);
}

fn put_ob_comp(record: &ObComp, out: &mut Vec<u8>) {
    number(out, 10, Some(record.id_ocomp));
    text(out, 7, &record.codigo);
    text(out, 60, &record.nombre_i);
    position(out, &record.centroide);
}

fn position(out: &mut Vec<u8>, position: &Posicion) {
    coordinate(out, 9, position.x);
    coordinate(out, 10, position.y);
    coordinate(out, 8, position.z);
}

/// Sign and number; zero has the sign +.
fn coordinate(out: &mut Vec<u8>, width: usize, value: Option<i64>) {
    let sign = match value {
        None => b' ',
        Some(below_zero) if below_zero < 0 => b'-',
        Some(_) => b'+',
    };
    text(out, 1, &[sign]);
    number(out, width, value.map(i64::unsigned_abs));
}

fn number(out: &mut Vec<u8>, width: usize, value: Option<u64>) {
    let start = out.len();
    out.resize(start + width, b' ');
    if let Some(mut rest) = value {
        for byte in out[start..].iter_mut().rev() {
            *byte = b'0' + (rest % 10) as u8;
            rest /= 10;
        }
        assert!(rest == 0, "a number too wide for its field");
    }
    out.push(b'|');
}

fn text(out: &mut Vec<u8>, width: usize, value: &[u8]) {
    assert!(value.len() <= width, "a text too wide for its field");
    out.extend_from_slice(value);
    out.resize(out.len() + width - value.len(), b' ');
    out.push(b'|');
}

impl Model {
    /// The composite ids of all objects that may have one, to be changed.
    pub fn memberships(&mut self) -> Vec<&mut Option<u64>> {
        let points = self.ob_pun.iter_mut().map(|record| &mut record.id_ocomp);
        let texts = self.ob_tex.iter_mut().map(|record| &mut record.id_ocomp);
        let linears = self.ob_lin.iter_mut().map(|record| &mut record.id_ocomp);
        points.chain(texts).chain(linears).collect()
    }

    /// The composite ids that objects have, each as often as it is named.
    pub fn composites_named(&self) -> Vec<u64> {
        let points = self.ob_pun.iter().map(|record| record.id_ocomp);
        let texts = self.ob_tex.iter().map(|record| record.id_ocomp);
        let linears = self.ob_lin.iter().map(|record| record.id_ocomp);
        points.chain(texts).chain(linears).flatten().collect()
    }
}

// What the damages ask of a model. They scan, since they meet small ones.
impl Model {
    /// The vertices of a line, as places in VERTICE, by their order numbers.
    pub(crate) fn line_vertices(&self, line: u64) -> Vec<usize> {
        let mut places: Vec<usize> = (0..self.vertice.len())
            .filter(|&place| self.vertice[place].id_linea == line)
            .collect();
        places.sort_by_key(|&place| self.vertice[place].no_orden);
        places
    }

    pub(crate) fn vertex_of_order_one(&self, line: u64) -> Option<usize> {
        self.vertice
            .iter()
            .position(|vertex| vertex.id_linea == line && vertex.no_orden == 1)
    }

    pub(crate) fn vertex_of_highest_order(&self, line: u64) -> Option<usize> {
        self.line_vertices(line).last().copied()
    }

    pub(crate) fn has_line(&self, line: u64) -> bool {
        self.vertice.iter().any(|vertex| vertex.id_linea == line)
    }

    /// The lines that have a vertex, each once.
    pub(crate) fn lines(&self) -> Vec<u64> {
        let mut lines: Vec<u64> = self.vertice.iter().map(|vertex| vertex.id_linea).collect();
        lines.sort_unstable();
        lines.dedup();
        lines
    }

    pub(crate) fn node(&self, id: u64) -> Option<usize> {
        self.nodo.iter().position(|node| node.id_nodo == id)
    }

    pub(crate) fn has_vertex_at(&self, xy: (Option<i64>, Option<i64>)) -> bool {
        self.vertice.iter().any(|vertex| vertex.posicion.xy() == xy)
    }

    pub(crate) fn has_node_at(&self, position: &Posicion) -> bool {
        self.nodo.iter().any(|node| node.posicion == *position)
    }

    /// The point objects that name a node, as places in OB_PUN.
    pub(crate) fn namers(&self, node: u64) -> Vec<usize> {
        (0..self.ob_pun.len())
            .filter(|&place| self.ob_pun[place].id_nodo == Some(node))
            .collect()
    }

    /// Enough point objects name it where nothing else holds it.
    pub(crate) fn is_held_by_points(&self, node: u64) -> bool {
        self.namers(node).len() > 1
    }

    /// The vertices that are neither first nor last of their line.
    pub(crate) fn middle_vertices(&self) -> Vec<usize> {
        let mut places = Vec::new();
        for line in self.lines() {
            let course = self.line_vertices(line);
            if course.len() > 2 {
                places.extend_from_slice(&course[1..course.len() - 1]);
            }
        }
        places
    }
}
