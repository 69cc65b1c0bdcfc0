//! A test of its own for each kind of field, so that they run side by side and a failure names its kind.

macro_rules! of_each_kind {
    ($test:ident) => {
        of_each_kind! { $test:
            spheres Sphere,
            cuboids Cuboid,
            tori Torus,
            gyroids Gyroid,
            planes Plane,
            points Point,
            the_origin Origin,
            the_far_corner FarCorner,
            paths Path,
            constants Constant,
            noise Noise,
            edges Edges,
            odd_distances Odd,
        }
    };
    ($test:ident: $($name:ident $kind:ident,)*) => {
        $(
            #[test]
            fn $name() {
                $test(oracle_answers::fields::Kind::$kind);
            }
        )*

        #[test]
        fn no_kind_is_left_out() {
            assert_eq!(oracle_answers::fields::KINDS, [$(oracle_answers::fields::Kind::$kind),*]);
        }
    };
}
