/* A card's curve as Boost has it, in binary64: its quintic Hermite interpolator, built once, is asked for value, first and second derivative
   at each minute, which is three calls with a search each. LAY, TABLE and DROP are named by bench/run, for each compiler. */
#include <boost/math/interpolators/quintic_hermite.hpp>
#include <cstddef>
#include <cstdint>
#include <utility>
#include <vector>

using Curve = boost::math::interpolators::quintic_hermite<std::vector<double>>;

/* Slopes and curvatures come in card units. */
extern "C" void *LAY(const uint16_t *minutes, const int16_t *ordinates, const int32_t *slopes, const int32_t *curvatures, size_t n) {
    std::vector<double> x(minutes, minutes + n), y(ordinates, ordinates + n), m, c;
    for (size_t i = 0; i < n; i++) {
        m.push_back(slopes[i] / 4096.0);
        c.push_back(curvatures[i] / 4096.0);
    }
    return new Curve(std::move(x), std::move(y), std::move(m), std::move(c));
}

extern "C" void TABLE(const void *laid, uint16_t from, size_t count, double *values, double *slopes, double *curvatures) {
    const Curve &curve = *static_cast<const Curve *>(laid);
    for (size_t i = 0; i < count; i++) {
        double x = from + double(i);
        values[i] = curve(x);
        slopes[i] = curve.prime(x);
        curvatures[i] = curve.double_prime(x);
    }
}

extern "C" void DROP(void *laid) { delete static_cast<Curve *>(laid); }
